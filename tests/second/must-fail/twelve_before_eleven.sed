# reference.cpp: a tree too large is refused by the room.
s/if (size > MAX_TREE) return {11};/if (size > MAX_TREE) return {12};/
