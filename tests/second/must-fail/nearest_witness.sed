# least.cpp: the first witness found is taken (01, tempting error 3).
s/verdict == verdict) visit(n, total/verdict == verdict) return visit(n, total/
