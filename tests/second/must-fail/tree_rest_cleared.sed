# reference.cpp: the tree buffer is cleared before the words are written.
s/std::ranges::copy(words, tree\.begin());/std::ranges::fill(tree, 0), &/
