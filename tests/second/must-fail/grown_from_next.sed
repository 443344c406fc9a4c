# least.cpp: rule 16's list is the next position's with one member more (01, tempting error 2).
s/rule == 16 ? where\.endless_count(entry, i)/rule == 16 ? where.endless_count(entry, i + 1) + 1/
