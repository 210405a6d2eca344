# Draws a matrix file of cellaware as a picture, one column per defect and one line per record.
# usage: gnuplot -c matrix.gp MATRIX.csv PICTURE.png
# Needs gnuplot with the terminal pngcairo (Debian: gnuplot-nox) and awk. File names without blanks and quotes.
# white: as the good cell; red: the opposite of the good cell, so the defect is exposed;
# grey: X where the good cell has a value; black: the good cell itself is at X

if (ARGC != 2) { print "usage: gnuplot -c matrix.gp MATRIX.csv PICTURE.png"; exit status 1 }
matrix = ARG1
names = system("awk -F, 'NR == 1 { for (k = 5; k <= NF; k++) print $k }' " . matrix)
records = system("awk -F, 'NR > 1 { print $1 \"-\" $2 \":\" $3 }' " . matrix)
columns = words(names)
lines = words(records)
if (columns == 0 || lines == 0) { print "no matrix: ", matrix; exit status 1 }

# Place and class of each entry. A line below the last one, out of sight, stands for pictures of one record.
entries = "< awk -F, 'NR > 1 { for (k = 5; k <= NF; k++) print k - 5, NR - 2, " \
    . "($4 == \"X\") ? 3 : ($k == \"X\") ? 2 : ($k == $4) ? 0 : 1 } " \
    . "END { for (k = 5; k <= NF; k++) print k - 5, NR - 1, 0 }' " . matrix

# A cell of the picture has at most 14 by 14 dots; names stand only where there is room for them.
least(a, b) = a < b ? a : b
most(a, b) = a > b ? a : b
wide = most(2, least(14, 2400 / columns))
high = most(1, least(14, 2400 / lines))

# The margins hold the longest names whole, at seven dots a letter.
longest(of) = int(system("awk -F, '" . of . " END { print n + 0 }' " . matrix))
left = 30 + 7 * longest("NR > 1 { m = length($1 $2 $3) + 2; if (m > n) n = m }")
low = 24 + 7 * longest("NR == 1 { for (k = 5; k <= NF; k++) if (length($k) > n) n = length($k) }")
width = most(480, left + 90 + wide * columns)
height = most(240, low + 90 + high * lines)
set terminal pngcairo size width, height font "sans,8"
set output ARG2

set title matrix . ": red exposes, grey is X, black is X of the good cell" noenhanced
set lmargin at screen 1.0 * left / width
set bmargin at screen 1.0 * low / height
set tics out nomirror noenhanced
set xtics ()
set ytics ()
if (wide >= 10) { set xtics rotate by 90 right (); set for [k = 1 : columns] xtics add (word(names, k) k - 1) }
if (high >= 10) { set for [k = 1 : lines] ytics add (word(records, k) k - 1) }
set xrange [-0.5 : columns - 0.5]
set yrange [lines - 0.5 : -0.5]
set cbrange [0 : 3]
set palette maxcolors 4 defined (0 "#ffffff", 1 "#d01010", 2 "#b8b8b8", 3 "#202020")
unset colorbox
unset key
plot entries using 1:2:3 with image pixels
