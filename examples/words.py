import sys
from sellumaq import JudySL

times = JudySL()
for word in sys.argv[1:]:
    times[word] = times.get(word, 0) + 1
for word in times.range("b"):
    print(word, times[word])
