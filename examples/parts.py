import sys
from multiprocessing import Pool
from sellumaq import JudySL

def count(name):
    times = JudySL()
    with open(name, encoding="utf-8") as file:
        for word in file.read().split():
            times[word] = times.get(word, 0) + 1
    return times

if __name__ == "__main__":
    whole = JudySL()
    with Pool() as pool:
        for part in pool.imap_unordered(count, sys.argv[1:]):
            for word, times in part.items():
                whole[word] = whole.get(word, 0) + times
    print([item for item in whole.items() if item[1] > 3])
