# check.cpp: a count is held against the words that are left.
s/if (!count_fits(node, entry, i)) return false;/&\
        if (kind >= SINCE \&\& node.number > tree.size() - next) return false;/
