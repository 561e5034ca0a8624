/* What a program that is not proved says where a step fails its check. The check then ends the program by an
   illegal instruction, which tells nobody why. The toolchain has no headers: what is called is declared here. */

long write(int file, const void *bytes, unsigned long count);
void _exit(int status);
void (*signal(int number, void (*handler)(int)))(int);

enum { STANDARD_ERROR = 2, ILLEGAL_INSTRUCTION = 4, NOT_MADE = 3 };

static const char WORDS[] =
    "regtry: stopped, since a step failed its check: an index out of range, a sum that wraps or the like. "
    "That is a mistake in the sources of this build, which is not proved. In crates/regtry, "
    "`rt try -- WORDS` with the same words names the place\n";

/* Says why the program ends, and ends it. */
static void stop(int number) {
  (void)number;
  (void)write(STANDARD_ERROR, WORDS, sizeof WORDS - 1);
  _exit(NOT_MADE);
}

/* Has it said, from the start of the program on. */
__attribute__((constructor)) static void listen_for_checks(void) {
  signal(ILLEGAL_INSTRUCTION, stop);
}
