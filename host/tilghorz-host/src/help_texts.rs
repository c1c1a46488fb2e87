//! The help texts.
//!
//! A text has paragraphs, and entries. An entry is a line with two blanks at its beginning: an option, a command or another
//! word, two blanks or more, and what it means. Lines that begin with more blanks belong to the entry before. The options of a
//! command, their short forms and their values are read from the entries, and so are the completions and the manual page.

/// The command as a whole.
pub const ALL: &str = "\
Puts the emoji selectors U+FE0E and U+FE0F where a policy wants them, and changes nothing else.

usage: tilghorz-host COMMAND [OPTIONS] [FILES]

  format       write the formatted text, change files in place, check them, or show what would change
  report       list the findings: where a text would change, and why
  fix          mend single findings, with the decisions that you make
  show         show the lines with findings, with the selectors made visible
  page         write texts and their findings as one page of HTML
  repair       replace the bad places of damaged texts by U+FFFD
  policy       print, compare, write and carry over policies, and list the single memberships that decide texts
  split        cut a file of any length into parts that can be formatted apart and joined
  completions  write the completions for a shell
  man          write the manual page
  help         show this text, or the help of a command, as in tilghorz-host help format; also help findings and help
               folders
  version      show the version, the Unicode version, and the kit that proved the library

A text is UTF-8 of at most 16,777,216 bytes; with --repair it may be damaged. Without FILES, or where a file is named -,
the text is standard input. If a folder is named, the command takes every file in it and in the folders below it, except
binary files, ignored files, names that begin with a full stop, symbolic links and special files: tilghorz-host help
folders.

Short options can be joined, as in -cq, and a value can follow its letter directly, as in -j4. After -- every word is
the name of a file.

The exit status is 0 if all is done. It is 1 if a text would change (--check, --diff) or two policies differ (policy
compare). It is 2 if a text was refused, a file could not be read or written, or the command line is wrong.
";

/// `format`.
pub const FORMAT: &str = "\
usage: tilghorz-host format [--check | --diff | --in-place | --follow] [--repair] [--policy FILE] [OPTIONS] [FILES]
       tilghorz-host format --parts [--check | --in-place] [--jobs N] [--policy FILE] [FILE]

Formats texts. Without an option it writes one text to standard output. If the text is refused, it writes nothing.

  -c, --check            only write the names of the files that would change. The status is 1 if there is one
  -0, --null             with --check: end each name with a byte 00 instead of a line feed, as xargs -0 expects it
  -d, --diff             show what would change, as a unified diff. Selectors and control characters are shown by their
                         code points, so it is for a person and not for patch. The status is 1 if a text would change
  -i, --in-place         change the files. The new text is written to a file beside the old one, synced and renamed, so
                         no file is ever half written, not even after a loss of power. Permissions, owner, group and
                         extended attributes stay, access control lists among them. A file that would lose one of them
                         is left as it was, with a message. If a symbolic link is named, the file it leads to is
                         changed. Another hard link keeps the old text. Read-only files are not changed
  --new-owner            with --in-place: if a file cannot keep its owner or group, give it to whoever runs the command
  --no-sync              with --in-place: do not sync. After a loss of power a changed file may be empty
  -r, --repair           first replace each bad place of a damaged text by U+FFFD: tilghorz-host help repair. The
                         longest length holds for the repaired text. A file that was only repaired counts as changed
  -f, --follow           format a text as it arrives, from standard input or from one file that grows. What the next
                         part can no longer change is written at once. The text ends with standard input, or at SIGINT,
                         SIGTERM or SIGHUP; then the rest is written. If the text is refused, what comes before the
                         damaged place has been written. At SIGUSR1 the file of --policy is read again. Each base is
                         judged by the policy in force when its last byte came. If the file is no policy then, a
                         message says so and the policy stays
  --parts                format one text of any length, also over 16,777,216 bytes, in parts of about a mebibyte. The
                         result is that of the whole text. Parts are read, formatted by --jobs threads and written in
                         turn, so little memory is needed. If a part is refused, the parts before it have been written;
                         with --in-place the file is as it was. A stretch of 16,777,216 bytes without an allowed cut is
                         refused: tilghorz-host help split
  -p, --policy FILE      the policy: a sheet, or the 200 bytes that tilghorz-host policy write makes: tilghorz-host help
                         policy. Without this option it is the default policy
  --stdin-filename NAME  the name of standard input, for messages and for what is written
  --color WHEN           when a diff is coloured: always, never or auto. auto means on a terminal; the variable NO_COLOR
                         then means never, and CLICOLOR_FORCE means always

More OPTIONS: --exclude, --include, --no-ignore, --binary, --jobs, --quiet, --verbose: tilghorz-host help folders.

If a file is refused, a message names it and the offset of the damage, and the command goes on with the others. After
several files it writes a summary to standard error. If SIGINT, SIGTERM or SIGHUP ends it, it first removes its
temporary files and says how many files it has done.
";

/// `repair`.
pub const REPAIR: &str = "\
usage: tilghorz-host repair [--check | --diff | --in-place] [OPTIONS] [FILES]

Replaces each bad place of damaged texts by U+FFFD, and changes nothing else: the result is well-formed UTF-8. A bad
place is a maximal subpart of the Unicode Standard, chapter 3: the bytes of a character that breaks off, or one byte.
Without an option it writes one text to standard output. The text may become longer than format accepts.

A message on standard error says how many places were replaced in which file, and where the first one is, also with
--quiet. It does not change the exit status. The new text does not have the bytes that were replaced, so keep a copy of
the old one.

  -c, --check             only write the names of the files with bad places. The status is 1 if there is one
  -0, --null              with --check: end each name with a byte 00, as in format
  -d, --diff              show what would change, as in format. A byte of a bad place is shown by its two digits, as
                          <E2>
  -i, --in-place          change the files, as in format. A file with a byte 00 and bad places may not be a text; it is
                          left as it was, unless --binary is given
  --new-owner, --no-sync  with --in-place, as in format
  --stdin-filename NAME   the name of standard input, as in format
  --color WHEN            when it is coloured: always, never or auto, as in format

With --repair, format, report, show, page and fix do the same before their own work. Offsets are then those of the
repaired text.

More OPTIONS: --exclude, --include, --no-ignore, --binary, --jobs, --quiet, --verbose: tilghorz-host help folders.
";

/// Folders.
pub const FOLDERS: &str = "\
usage: tilghorz-host format|report|show|page|repair|policy tips [OPTIONS] FOLDER ..

The command takes every file in a folder and in the folders below it, in the order of their paths. It passes over names
that begin with a full stop, symbolic links, special files, what a .gitignore ignores, what --exclude matches, what
--include does not match, and binary files, which are files with a byte 00. The summary counts them, and they do not
change the exit status. A file that is named itself is always taken.

  --exclude GLOB  pass over what matches, and everything in it. The option can be given several times
  --include GLOB  only take what matches, and everything in it. The option can be given several times; --exclude comes
                  first
  --no-ignore     also take what a .gitignore ignores
  --binary        also take binary files. Only with this option is a file with a byte 00 and bad places repaired in
                  place
  -j, --jobs N    use N threads, at most 256, over files and within a file: format lets free threads work on a text of a
                  mebibyte or more. Without this option there are as many as processors. The output is the same for
                  every N
  -q, --quiet     write no summary and no progress; messages about errors stay
  -v, --verbose   name each file that is passed over, and why

A GLOB is a pattern as in .gitignore. * matches any part of a name, ? one character, [a-z] a character of a class, and
[!a-z] a character outside it. After \\ a character means itself. ** as a name matches any number of folders. A GLOB
with a / before its end is a path from FOLDER; any other GLOB matches names at every depth. A GLOB with a / at its end
matches only folders.

The .gitignore files of all these folders count, and in a repository also those of the folders above. The last matching
line of the nearest file decides, and a ! at the start of a line takes a match back.

With --in-place the command removes what a killed command has left in a folder: files .tilghorz-PROCESS-NUMBER.tmp of
processes that have ended.
";

/// Findings.
pub const FINDINGS: &str = "\
usage: tilghorz-host help findings

A finding is a place where formatting adds or removes selectors: an emoji with all that belongs to it, or a run of
selectors. Eight counts say how many selectors, and why. The examples show selectors by their code points, as the
command show does.

  unsanctioned          a selector where none may stand is removed
                        a<FE0F> becomes a
  modifier-defective    FE0F between a base and its skin tone is removed
                        \u{261D}<FE0F><1F3FB> becomes \u{261D}<1F3FB>
  additional-defective  FE0F between another base and a skin tone is removed
                        \u{2764}<FE0F><1F3FB> becomes \u{2764}<1F3FB>
  tag-conflicting       FE0E before tags is removed
                        \u{231A}<FE0E><E0061> becomes \u{231A}<E0061>
  tag-forced            FE0F is added before tags, because the base is a text by default
                        \u{2764}<E0061> becomes \u{2764}<FE0F><E0061>
  tag-redundant         FE0F before tags is removed, because the base is an emoji by default
                        \u{231A}<FE0F><E0061> becomes \u{231A}<E0061>
  policy-redundant      a selector is removed, because the policy gives the bare base the same style
                        1<FE0E> becomes 1
  decisions             a selector is added to a bare base, because the policy asks for one. format adds the one that
                        the policy names, and fix --decide adds the one that you choose
                        \u{2764} becomes \u{2764}<FE0E>

Under the default policy a bare heart gets text style, as in the last example. Another policy changes that:
tilghorz-host help policy.
";

/// `report`.
pub const REPORT: &str = "\
usage: tilghorz-host report [--format FORM] [--items] [--repair] [--policy FILE] [OPTIONS] [FILES]
       tilghorz-host report --at PLACE | --from PLACE --to PLACE [--format FORM] [--repair] [--policy FILE] [FILES]

Writes the findings of texts. What they mean: tilghorz-host help findings.

  --format FORM          the form: lines, short or json. Without this option it is lines
  --json                 the same as --format json
  --items                write the items of the text instead: start, end, kind, and whether the tags are complete. With
                         --json they come after the findings
  --at PLACE             write only the finding nearest to a place: the word distance and a number of bytes, which is 0
                         inside the finding, then the finding. If there is no finding, write none
  --from PLACE           write only the findings around a stretch that begins at a place: first those wholly inside it,
                         each after the word inside, then those that only share a byte with it, each after the word
                         sharing. Without --to the stretch goes to the end of the text
  --to PLACE             the same for a stretch that ends before a place. Without --from it begins at the start of the
                         text
  -r, --repair           first replace each bad place by U+FFFD: tilghorz-host help repair. Offsets are those of the
                         repaired text. With --json, replaced is the number of replacements
  -p, --policy FILE      the policy, as in format
  --stdin-filename NAME  the name of standard input, as in format

A PLACE is an offset in bytes, or LINE:COLUMN. Lines and columns are counted from 1, and a column is a character.

The form lines has a line for each finding, with start, end and the eight counts, and then a line with the totals. For a
refused text it has the word refused, the number and any offset. If there are several files, a line with the name comes
before each.

The form short is for editors. It has a line for each finding: FILE:LINE:COLUMN: message. A text that is refused or
cannot be read also has such a line.

The form json has a JSON object for each text, one on each line, as docs/report.schema.json describes it: the counts by
their names, start and end in bytes, in characters and in UTF-16 units, line and column, what format would write, the
Unicode version, and the SHA-256 of the text, as it was read, and of the policy. A text that is refused or cannot be
read has an error instead. A file name that is not UTF-8 is also given in hexadecimal digits.

More OPTIONS: --exclude, --include, --no-ignore, --binary, --jobs, --quiet, --verbose: tilghorz-host help folders.
";

/// `fix`.
pub const FIX: &str = "\
usage: tilghorz-host fix --at PLACE [--decide LIST] [--at PLACE [--decide LIST]] .. [OPTIONS] [FILE]

Mends the findings that start at the places, and writes the whole text to standard output. Every PLACE counts in the
text before any change. If one finding cannot be mended, none is.

  --at PLACE              where a finding starts: an offset in bytes, or LINE:COLUMN, as report gives them. Lines and
                          columns are counted from 1, and a column is a character
  --decide LIST           the decisions for the finding of the last --at: text, emoji or default for each decision that
                          it counts, in text order, with commas between them, as in --decide emoji,text. default means
                          what the policy says, and alone it stands for all decisions
  -i, --in-place          change the file instead of writing the text, as in format
  --new-owner, --no-sync  with --in-place, as in format
  -r, --repair            first replace each bad place by U+FFFD: tilghorz-host help repair. A PLACE is one of the
                          repaired text
  --binary                with --in-place and --repair: also change a file that has a byte 00 and bad places
  -p, --policy FILE       the policy, as in format
  --stdin-filename NAME   the name of standard input, as in format
";

/// `show`.
pub const SHOW: &str = "\
usage: tilghorz-host show [--context N | --all] [--repair] [--policy FILE] [OPTIONS] [FILES]

Shows the lines of texts that have findings. Selectors, links, tags and control characters are shown by their code
points, as <FE0F>. Marks under the line show where each finding is. Below them are its bytes, its counts and what format
would write. tilghorz-host help findings says what the counts mean. Of a line with more than 160 columns only the parts
around the findings are shown. For a text without findings nothing is shown.

  -C, --context N        also show N lines before and N lines after each line with findings
  -a, --all              show every line, and all of it
  -r, --repair           first replace each bad place by U+FFFD: tilghorz-host help repair. Offsets are those of the
                         repaired text
  -p, --policy FILE      the policy, as in format
  --stdin-filename NAME  the name of standard input, as in format
  --color WHEN           when it is coloured: always, never or auto, as in format

More OPTIONS: --exclude, --include, --no-ignore, --binary, --jobs, --quiet, --verbose: tilghorz-host help folders.
";

/// `page`.
pub const PAGE: &str = "\
usage: tilghorz-host page --output FILE [--most N] [--repair] [--policy FILE] [OPTIONS] [FILES]

Writes texts and their findings as one page of HTML, for a browser or for paper. The page loads nothing and runs no
script. It has each text before and after formatting, side by side, with a badge for each selector and each invisible
character. Each finding is marked, and has an anchor, its place, its reason and its choices. Lines without findings are
folded.

The page begins with the texts that were refused, and the bytes around the damage. Then it has the totals, in how many
files each count occurs, the memberships that decide most texts, the policy, and the versions. Each text has the
SHA-256 of its bytes before and after, and the policy has its own. The same texts give the same page, byte for byte.

  -o, --output FILE      where the page is written. A file that is there is only replaced if it is a page or is empty,
                         and a page in a folder of texts is not one of them. - means standard output
  --most N               describe at most N findings of each text, and count the others. Without this option it is 200
  -r, --repair           first replace each bad place by U+FFFD: tilghorz-host help repair. Offsets are those of the
                         repaired text
  -p, --policy FILE      the policy, as in format
  --stdin-filename NAME  the name of standard input, as in format

The status is 2 if a text was refused or could not be read; the page is then written too.

More OPTIONS: --exclude, --include, --no-ignore, --binary, --jobs, --quiet, --verbose: tilghorz-host help folders.
";

/// `policy`.
pub const POLICY: &str = "\
usage: tilghorz-host policy print [--members] [FILE]
       tilghorz-host policy compare FILE [FILE]
       tilghorz-host policy write [--add SET CONTEXT CODE] [--take SET CONTEXT CODE] .. [FILE]
       tilghorz-host policy carry --from OLD-emoji-variation-sequences.txt FILE
       tilghorz-host policy tips [--json] [--repair] [--policy FILE] [OPTIONS] [FILES]

A policy is a sheet, which is a text, or a file of 200 bytes. A file with a byte 00 is read as the bytes, and any other
as a sheet. The bytes begin with the Unicode version of the tables, and a policy of another version is refused. Without
FILE the default policy is meant, also for the second policy of compare.

A sheet has four lines, each ended by a line feed: prefer_bare ordinary, prefer_bare keycap, bare_as_text ordinary,
bare_as_text keycap. A line has code points and ranges, such as 2764 or 30-39, with commas between them and no blanks;
it may be empty. A code point has two or four to six digits, 0 to 9 and A to F, and must have a variation sequence. A
range includes only the code points inside it that have one. If a sheet is wrong, a message says what is wrong, with
line and column.

  print        write the sheet, ascending and with ranges joined. Equal policies have equal sheets
  compare      write a line for each base and context for which the policies have different rules. The status is 1 if
               there is one
  write        write the 200 bytes to standard output, with members added and taken out
  carry        write the 200 bytes of a policy that was stored under the tables of another Unicode version. An entry of
               both tables keeps its memberships, an entry that is gone is dropped, and a new one gets those of the
               default policy
  tips         list the memberships of which a single flip alters a formatted text of FILES: a line for each, with the
               number of texts that it alters, and the flip as an option of write. The largest numbers come first. Equal
               numbers are ordered by code point, then ordinary before keycap, then prefer_bare before bare_as_text

  --members                with print: write the members of the four sets instead, each by its code point, and their
                           number
  --add SET CONTEXT CODE   with write: add a member. SET is prefer_bare or bare_as_text, CONTEXT is ordinary or keycap,
                           CODE is a code point, such as 2764
  --take SET CONTEXT CODE  with write: take a member out
  --from FILE              with carry: the file of variation sequences of the policy's Unicode version
  --json                   with tips: write a JSON array instead
  -r, --repair             with tips: first replace each bad place by U+FFFD: tilghorz-host help repair
  -p, --policy FILE        with tips: the policy
  --stdin-filename NAME    with tips: the name of standard input

More OPTIONS of tips: --exclude, --include, --no-ignore, --binary, --jobs, --quiet, --verbose: tilghorz-host help
folders.
";

/// `split`.
pub const SPLIT: &str = "\
usage: tilghorz-host split --parts N DIR FILE

Cuts a file of any length into N parts: the files part-1 to part-N of the new folder DIR, with as many digits as N has,
so that they sort in their order. The parts formatted apart and joined are the file formatted, under each policy. GNU
parallel with --keep-order formats and joins them.

A cut is allowed before each character that is no selector, modifier, 20E3 or tag, and at the end. The longest part is
as short as it can be; the last parts may be empty. The text is not tested: a damaged part is refused when it is
formatted.

A line for each part is written to standard output: its start and its end in bytes, and its name. If a part would have
more than 16,777,216 bytes, nothing is made, and a message names the least N. After a fault or a signal there is no DIR.

  --parts N  the number of parts
";

/// `completions`.
pub const COMPLETIONS: &str = "\
usage: tilghorz-host completions bash|zsh|fish

Writes the completions of commands and options for a shell. To install them:

  bash  tilghorz-host completions bash > ~/.local/share/bash-completion/completions/tilghorz-host
  zsh   tilghorz-host completions zsh > FOLDER/_tilghorz-host, where FOLDER is one of $fpath
  fish  tilghorz-host completions fish > ~/.config/fish/completions/tilghorz-host.fish
";

/// `man`.
pub const MAN: &str = "\
usage: tilghorz-host man

Writes the manual page, which is made from the help texts. To read it: tilghorz-host man | man -l -
";
