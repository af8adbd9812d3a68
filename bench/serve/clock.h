/* What clock.c notes of a server's calls. A gate is a write of one byte. */
enum kind { WRITES = 1, GATES, SYNCS, SYNCED, REPLIED, READ };

/* Notes that this happens now. It is there if clock.c is. */
void note(enum kind kind) __attribute__((weak));
