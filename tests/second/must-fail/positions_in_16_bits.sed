# check.cpp: positions are counted in 16 bits.
s/node\.number != i)/node.number != i % 65536)/
