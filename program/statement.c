/* The program `statement` as a person uses it: arguments, the file, messages and the exit status. What stands on standard output is the proved
 * library's alone (crates/statement), but for the two texts of --help and --version.
 */
#include <errno.h>
#include <fcntl.h>
#include <signal.h>
#include <stdbool.h>
#include <stdint.h>
#include <stdio.h>
#include <string.h>
#include <unistd.h>

/* Reads `input`, which has to be standard input, to its end and prints its statement to `output`, each text as soon as it is certain. It says how that
 * ended: 0, 1 or 2 as below, or that a read or a write failed, with errno as that call left it. */
uint32_t statement_print(int32_t input, int32_t output, int32_t errors, bool table, bool explain);

enum { READ_FAILED = 4, WRITE_FAILED = 5 };

/* The exit status; docs/STATEMENT.md has them for a reader. */
enum { ACCEPTED, REFUSED, STOPPED, WRONG_USE, FAILED };

struct wish {
    bool help, version, table, explain;
    const char *file; /* NULL: standard input */
};

static const char help[] =
    "usage: statement [--table] [--explain] [FILE]\n"
    "\n"
    "Reads an account and its months from FILE, or from standard input where no file\n"
    "is named or it is -, and prints the statement: a line for the opening, and one\n"
    "for each month as soon as it is complete.\n"
    "\n"
    "  --table    print each month as a table, in Wh and dollars\n"
    "  --explain  say on standard error what each refusal means and what to do\n"
    "  --help     print this text\n"
    "  --version  print the version\n"
    "\n"
    "Exit status: 0 all accepted, 1 something refused, 2 stopped at a line that\n"
    "can't be read, 3 wrong use or a file that can't be opened, 4 reading or writing\n"
    "failed.\n"
    "\n"
    "The fourteen lines of an account and the three of a month, to start from:\n"
    "\n"
    "opens=2001-02\n"
    "rider=banked\n"
    "class=home\n"
    "nameplate=8000\n"
    "limit=9000\n"
    "assisted=no\n"
    "prices=30000,20000,10000,5000\n"
    "demand=0\n"
    "standby=0\n"
    "bypass=0\n"
    "credit=0\n"
    "distribution=0\n"
    "basic=1400\n"
    "minimum=0\n"
    "bill=2001-02\n"
    "critical=0\n"
    "run=2688,100,0\n";

static int wrong_use(const char *what, const char *argument)
{
    fprintf(stderr, "statement: %s '%s'; statement --help says what there is\n", what, argument);
    return WRONG_USE;
}

/* The last call on a file failed. A write that takes nothing gives no reason. */
static int failed(const char *name, int status)
{
    fprintf(stderr, "statement: %s: %s\n", name, errno ? strerror(errno) : "nothing more can be written");
    return status;
}

/* Reads the arguments. Files and options may come in any order; after -- there are only files. */
static int read_arguments(int count, char **arguments, struct wish *wish)
{
    bool options = true, named = false;

    for (int i = 1; i < count; i++) {
        const char *argument = arguments[i];
        const bool option = options && argument[0] == '-' && argument[1] != '\0';

        if (!option && named)
            return wrong_use("one file at most, so not also", argument);
        if (!option) {
            named = true;
            wish->file = strcmp(argument, "-") == 0 ? NULL : argument;
        } else if (strcmp(argument, "--") == 0) {
            options = false;
        } else if (strcmp(argument, "--help") == 0) {
            wish->help = true;
        } else if (strcmp(argument, "--version") == 0) {
            wish->version = true;
        } else if (strcmp(argument, "--table") == 0) {
            wish->table = true;
        } else if (strcmp(argument, "--explain") == 0) {
            wish->explain = true;
        } else {
            return wrong_use("unknown option", argument);
        }
    }
    return ACCEPTED;
}

static int tell(const char *text)
{
    if (fputs(text, stdout) == EOF || fclose(stdout) != 0)
        return failed("standard output", FAILED);
    return ACCEPTED;
}

/* Opens a file in the place of standard input, which alone the library reads. */
static bool take_input(const char *file)
{
    const int input = open(file, O_RDONLY);

    if (input < 0)
        return false;
    return input == STDIN_FILENO || (dup2(input, STDIN_FILENO) == STDIN_FILENO && close(input) == 0);
}

static int print_statement(const struct wish *wish)
{
    const char *name = wish->file ? wish->file : "standard input";

    if (wish->file && !take_input(wish->file))
        return failed(name, WRONG_USE);
    if (!wish->file && isatty(STDIN_FILENO))
        fputs("statement: type the account's fourteen lines and its months (statement --help shows them); Ctrl-D ends the input\n", stderr);
    errno = 0;
    const uint32_t ended = statement_print(STDIN_FILENO, STDOUT_FILENO, STDERR_FILENO, wish->table, wish->explain);
    if (ended == READ_FAILED)
        return failed(name, FAILED);
    if (ended == WRITE_FAILED)
        return failed(wish->explain ? "standard output or standard error" : "standard output", FAILED);
    /* Some file systems tell only now that what was written could not be kept. */
    if (close(STDOUT_FILENO) != 0)
        return failed("standard output", FAILED);
    return (int)ended;
}

int main(int count, char **arguments)
{
    struct wish wish = {false, false, false, false, NULL};

    /* A reader who has seen enough ends the program without a word, also where whoever started it ignores that signal. */
    signal(SIGPIPE, SIG_DFL);
    const int use = read_arguments(count, arguments, &wish);
    if (use != ACCEPTED)
        return use;
    if (wish.help)
        return tell(help);
    if (wish.version)
        return tell("statement " VERSION "\n");
    return print_statement(&wish);
}
