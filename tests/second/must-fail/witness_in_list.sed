# check.cpp: rule 11's list begins at i - n (01, tempting error 4).
s/list(e\.left, i - n + 1, n, HOLDS)/list(e.left, i - n, n + 1, HOLDS)/
