# text.cpp: a last line without a newline is read all the same.
s/if (end == rest\.npos) return {};/if (rest.empty()) return {};/
