/* What `tagedit --help` prints. One line of the text is one line of this file: if the program is not built yet, the launcher prints them from here. */
#ifndef TAGEDIT_HELP_H
#define TAGEDIT_HELP_H

#define TAGEDIT_HELP \
    "Usage: tagedit [-v] [FILE]\n" \
    "Edits the base-modification tag (MM and ML) of one read by a list of steps.\n" \
    "\n" \
    "Reads FILE, or standard input without FILE or if FILE is '-'. The input has one line for each of\n" \
    "  SQbases          SEQ, at most 16,000 bases\n" \
    "  MMtext           the MM text, such as C+m?,0,1,0;\n" \
    "  MLvalue,..       the ML values, 0 to 255; leave this line out for a tag without ML\n" \
    "and then one for each step:\n" \
    "  MKplace,..       mask: write N to these places of SEQ\n" \
    "  DRplace,..       drop: remove the calls at these places, and keep SEQ\n" \
    "  CUfront,back     cut so many bases off the front and off the back\n" \
    "Places count from 0 in SEQ as the step finds it. The input has at most 65,536 bytes.\n" \
    "\n" \
    "Prints AN and a number for the opening and for each step (0 is done), and then SQ, MM and ML\n" \
    "as the steps leave them. A refused step changes nothing, and the next one follows. A refused\n" \
    "opening or a bad line ends the output. docs/SCOPE.md lists the numbers.\n" \
    "\n" \
    "  -v, --verbose    say on standard error, in words, which lines were refused and why;\n" \
    "                   if standard error is a terminal, this is always said\n" \
    "  -h, --help       print this\n" \
    "  -V, --version    print the version\n" \
    "\n" \
    "Status: 0 if the answers were printed, whatever they are; 1 if the input cannot be read or the\n" \
    "output cannot be written; 2 if the options are wrong.\n"

#endif
