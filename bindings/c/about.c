/* What the library tells of itself: its version, and each number that a call answers as text. No proof reads this. */
#include "sellumaq.h"

const char *sellumaq_version(void) { return SELLUMAQ_VERSION; }

const char *sellumaq_error_text(int number) {
    switch (number) {
    case SELLUMAQ_PRESENT: return "no error: the key was there already, or there is no such key";
    case SELLUMAQ_ADDED: return "no error: the key was added, or it was found";
    case SELLUMAQ_NO_MEMORY: return "no memory, and nothing changed";
    case SELLUMAQ_FULL: return "the map can't hold more than 4,294,967,295 keys, and nothing changed";
    case SELLUMAQ_BAD_KEY: return "the bytes are no key or none for a dump, or a key isn't above the one before";
    case SELLUMAQ_TOO_SMALL: return "the key found or the dump doesn't fit the buffer";
    case SELLUMAQ_BAD_NAME: return "the name of a dump isn't 1 to 32 ASCII letters, digits, `_` and `-`";
    case SELLUMAQ_TOO_MANY: return "there are more keys than a dump can say, 4,294,967,295";
    case SELLUMAQ_BAD_DUMP: return "the bytes are no dump of one such array, and the array is as it was";
    case SELLUMAQ_BAD_FORMAT: return "the format of a dump is neither 1 nor 2";
    case SELLUMAQ_SYSTEM: return "a call of the system failed, and errno says why";
    default: return "no call of Sellumaq's answers this number";
    }
}
