# least.cpp: a list goes on past a member of the wrong verdict.
s/verdict != verdict) return;/verdict != verdict) continue;/
