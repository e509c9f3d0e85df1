/* What the command line tool says of itself. */
#include "tool.h"

static const char *const names[COMMANDS] = {"check",    "tracks",     "to-text", "to-midi",
                                            "to-sheet", "from-sheet", "tidy",    "fold"};

enum command command_named(const char *name) {
    int command = 0;
    while (command < COMMANDS && strcmp(name, names[command]) != 0) {
        command++;
    }
    return (enum command)command;
}

static const char all[] =
    "usage: noferkash check      [-v]      [FILE...]\n"
    "       noferkash tracks               [FILE...]\n"
    "       noferkash to-text    [-f]      [IN [OUT]]  |  -d FOLDER FILE...\n"
    "       noferkash to-midi    [-f] [-x] [IN [OUT]]  |  -d FOLDER FILE...\n"
    "       noferkash to-sheet   [-f]      [IN [OUT]]  |  -d FOLDER FILE...\n"
    "       noferkash from-sheet [-f] [-x] [IN [OUT]]  |  -d FOLDER FILE...\n"
    "                            [--text] [--against OLD]\n"
    "       noferkash tidy       [-f]      [IN [OUT]]  |  -d FOLDER FILE...\n"
    "       noferkash fold       [-f]      [IN [OUT]]  |  -d FOLDER FILE...\n"
    "       noferkash help [COMMAND] | --version\n"
    "\n"
    "  check       says whether each FILE is a good Standard MIDI File\n"
    "  tracks      lists the tracks of each FILE and marks those that stop early\n"
    "  to-text     writes a Standard MIDI File as MIDICSV text\n"
    "  to-midi     writes a MIDICSV text as a Standard MIDI File\n"
    "  to-sheet    writes a Standard MIDI File as a table for a spreadsheet\n"
    "  from-sheet  writes the table that a spreadsheet saved as a Standard MIDI File\n"
    "  tidy        writes a Standard MIDI File again in the fewest bytes\n"
    "  fold        writes it again with all its tracks in one, as format 0\n"
    "\n"
    "IN and OUT are standard input and output where left out or \"-\". An existing\n"
    "file is replaced only with -f. Exit status: 0 good; 1 refused, with a line for each\n"
    "refused file on standard error; 2 wrong usage, or reading or writing failed.\n";

#define REPLACING                                                                              \
    "  -f         replaces an existing file. Without it nothing is replaced, unless it is\n" \
    "             empty"

static const char check[] =
    "usage: noferkash check [-v] [FILE...]\n"
    "\n"
    "Says whether each FILE is a good Standard MIDI File; without FILE it reads standard\n"
    "input. A file that is refused gets one line on standard error, with the number of the\n"
    "refusal, its place and what it means. The exit status is 0 if all are good, 1 if any\n"
    "is refused, 2 if any cannot be read.\n"
    "\n"
    "  -v         says of each good file how many tracks and bytes it has\n";

static const char tracks[] =
    "usage: noferkash tracks [FILE...]\n"
    "\n"
    "Lists the tracks of each FILE, a Standard MIDI File, on standard output; without FILE it\n"
    "reads standard input. A line has the number of a track, its name, how many events it\n"
    "has, the Time of its End_track, the padding (bytes that its variable-length numbers take\n"
    "above the fewest), how many notes it has, and the Times at which the first and the last\n"
    "of them begin. In the bar behind them, which is as long as the longest track, # stands\n"
    "where notes begin. A track with notes whose last note or End_track comes before nine\n"
    "tenths of the greatest in the file is marked \"<- stops early\".\n"
    "\n"
    "The exit status is 0 if all were listed, marked or not, 1 if any is refused, 2 if any\n"
    "cannot be read or the list cannot be written.\n";

#define FOLDER_OPTION                                                                          \
    "  -d FOLDER  converts each FILE to a file of the same name in FOLDER, which is made if\n" \
    "             needed. An OUT that is a folder does the same\n"

static const char to_text[] =
    "usage: noferkash to-text [-f] [IN [OUT]]\n"
    "       noferkash to-text [-f] -d FOLDER FILE...\n"
    "\n"
    "Writes the Standard MIDI File IN as MIDICSV text, OUT or FOLDER/NAME.csv.\n"
    "\n" FOLDER_OPTION REPLACING ". A MIDI file is never replaced by a text\n";

static const char to_midi[] =
    "usage: noferkash to-midi [-f] [-x] [IN [OUT]]\n"
    "       noferkash to-midi [-f] [-x] -d FOLDER FILE...\n"
    "\n"
    "Writes the MIDICSV text IN as a Standard MIDI File, OUT or FOLDER/NAME.mid.\n"
    "\n" FOLDER_OPTION REPLACING "\n"
    "  -x         full: writes every status byte; without it those that repeat are left out\n";

static const char to_sheet[] =
    "usage: noferkash to-sheet [-f] [IN [OUT]]\n"
    "       noferkash to-sheet [-f] -d FOLDER FILE...\n"
    "\n"
    "Writes the Standard MIDI File IN as a table, OUT or FOLDER/NAME.csv, that a spreadsheet\n"
    "opens with its usual settings. What it saves from-sheet reads.\n"
    "\n" FOLDER_OPTION REPLACING ". A MIDI file is never replaced by a table\n";

static const char from_sheet[] =
    "usage: noferkash from-sheet [-f] [-x | --text] [--against OLD] [IN [OUT]]\n"
    "       noferkash from-sheet [-f] [-x | --text] -d FOLDER FILE...\n"
    "\n"
    "Writes the table IN, as a spreadsheet saved it, as a Standard MIDI File, OUT or\n"
    "FOLDER/NAME.mid. A refusal names the row. A row whose text is TRUE, or such a word of\n"
    "another language, is told on standard error: the spreadsheet may have put it there.\n"
    "\n" FOLDER_OPTION REPLACING "\n"
    "  -x         full: writes every status byte; without it those that repeat are left out\n"
    "  --text     writes MIDICSV text, OUT or FOLDER/NAME.csv, a line for each row. A table\n"
    "             that has no Standard MIDI File is refused all the same\n"
    "  --against OLD\n"
    "             lists the records that differ from those of the Standard MIDI File OLD, on\n"
    "             standard output, or on standard error where OUT is standard output\n";

static const char tidy[] =
    "usage: noferkash tidy [-f] [IN [OUT]]\n"
    "       noferkash tidy [-f] -d FOLDER FILE...\n"
    "\n"
    "Writes the Standard MIDI File IN again in the fewest bytes, to OUT or FOLDER/NAME.mid.\n"
    "The music stays the same. OUT may be IN.\n"
    "\n" FOLDER_OPTION REPLACING " or IN itself\n";

static const char fold[] =
    "usage: noferkash fold [-f] [IN [OUT]]\n"
    "       noferkash fold [-f] -d FOLDER FILE...\n"
    "\n"
    "Writes the Standard MIDI File IN again with all its tracks in one, as format 0, to OUT\n"
    "or FOLDER/NAME.mid. OUT is never IN, which keeps the tracks.\n"
    "\n" FOLDER_OPTION REPLACING "\n";

const char *help_for(enum command command) {
    static const char *const texts[COMMANDS + 1] = {
        check, tracks, to_text, to_midi, to_sheet, from_sheet, tidy, fold, all};
    return texts[command];
}

static const char midicsv[] =
    "usage: midicsv [-u] [-v] [-f] [IN [OUT]]\n"
    "\n"
    "Writes the Standard MIDI File IN as MIDICSV text, as noferkash to-text does.\n"
    "\n"
    "  -u  prints this\n"
    "  -v  says how many tracks and bytes the file has, on standard error\n"
    "  -f  replaces an existing OUT, but never a MIDI file\n";

static const char csvmidi[] =
    "usage: csvmidi [-u] [-v] [-x] [-z] [-f] [IN [OUT]]\n"
    "\n"
    "Writes the MIDICSV text IN as a Standard MIDI File, as noferkash to-midi does.\n"
    "\n"
    "  -u  prints this\n"
    "  -v  says how many tracks and bytes the file has, on standard error\n"
    "  -x  writes every status byte; without it those that repeat are left out\n"
    "  -z  changes nothing: the first error always refuses the whole text\n"
    "  -f  replaces an existing OUT\n";

const char *midicsv_help_for(enum command command) {
    return command == TO_TEXT ? midicsv : csvmidi;
}
