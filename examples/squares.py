from sellumaq import JudyL

roots = JudyL((n * n, n) for n in range(1, 6))
print(roots.count_range(4, 17), "squares")
