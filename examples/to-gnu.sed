# A listing with labels as text for GNU as, whose words are the same but for the hints of jumps, which it sets to 0:
#     ./alpha dis FILE | awk -f examples/labels.awk | sed -E -f examples/to-gnu.sed
# The lines of fields go; GNU's linker is told the addresses. A segment with a base becomes a section of its own.
1i .set noat\n.set noreorder\n.set nomacro\n.arch ev67
/^\.(codebase|database|stack|entry|level) /d
s/^[ \t]*\.code$/.text/
s/^\.segment 0x([0-9a-f]+)$/.section .data_\1,"aw"/
s/(j(mp|sr).*\)),[0-9]+$/\1,0/
s/(rd|wr)unique/\1uniq/
s/(fetch.*) 0/\1 /
