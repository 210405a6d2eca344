# Draws reports of cellaware atpg, grade or bridges as a picture, several runs side by side under the same scale: for each type of cell
# how many of its defects have which verdict, and how the number of credited defects grows with the patterns.
# usage: gnuplot -c report.gp REPORT.csv [REPORT.csv ..] PICTURE.png
# Needs gnuplot with the terminal pngcairo (Debian: gnuplot-nox) and awk. File names without blanks and quotes.

if (ARGC < 2) { print "usage: gnuplot -c report.gp REPORT.csv [REPORT.csv ..] PICTURE.png"; exit status 1 }
runs = ARGC - 1
picture = ARGV[ARGC]
files = ""
do for [k = 1:runs] { files = files . " " . ARGV[k] }

# The most types of cells that a report has, the most defects of a type, and the most credited ones and pairs.
most(a, b) = a > b ? a : b
first = "awk -F, 'FNR > 1 && NF == 6 "
types = 0; tallest = 0; credited = 0; pairs = 0
do for [k = 1:runs] {
    here = first . "{ if (!n[$2]++) m++ } END { print m + 0 }' " . ARGV[k]
    if (int(system(here)) == 0) { print "no defects: ", ARGV[k]; exit status 1 }
    types = most(types, int(system(here)))
    tallest = most(tallest, int(system(first . "{ if (++n[$2] > m) m = n[$2] } END { print m }' " . ARGV[k])))
    credited = most(credited, int(system(first . "&& $4 == \"credited\" { n++ } END { print n + 0 }' " . ARGV[k])))
    pairs = most(pairs, int(system(first . "&& $4 == \"credited\" && $5 + 1 > m { m = $5 + 1 } END { print m + 0 }' " . ARGV[k])))
}

# One line for each type of cell: its name and how many of its defects have each verdict.
counts(report) = "< " . first . "{ n[$2 \",\" $4]++; seen[$2] } END { for (cell in seen) print cell, " \
    . "n[cell \",credited\"] + 0, n[cell \",unexposable\"] + 0, n[cell \",untestable\"] + 0, " \
    . "n[cell \",aborted\"] + 0, n[cell \",uncredited\"] + 0, n[cell \",port\"] + 0, n[cell \",wide\"] + 0 }' " \
    . report . " | sort"
# After each pair, the number of defects that are credited to it or to an earlier one.
growth(report) = "< " . first . "&& $4 == \"credited\" { n[$5]++; if ($5 + 0 > m) m = $5 + 0 } " \
    . "END { print 0, 0; if (NR > 1) for (p = 0; p <= m; p++) { sum += n[p]; print p + 1, sum + 0 } }' " . report

verdicts = "credited unexposable untestable aborted uncredited port wide"
colours = "#3a7d44 #c9c9c9 #7a9cc6 #c1440e #e0b040 #8a7fb0 #55565a"
set terminal pngcairo size runs * most(700, 260 + 34 * types), 900 font "sans,11"
set output picture
set multiplot layout 2, runs
set style data histograms
set style histogram rowstacked
set style fill solid 0.9 border -1
set boxwidth 0.8
set xtics rotate by -60 left
# defects or bridges, as the reports say
what = system("head -n 1 " . ARGV[1] . " | cut -d, -f3") . "s"
set ylabel what
set key outside top center horizontal
set yrange [0:tallest * 1.05]
do for [k = 1:runs] {
    if (runs > 1) { set xlabel ARGV[k] noenhanced }
    plot for [v = 1:7] counts(ARGV[k]) using (column(v + 1)):xtic(1) title word(verdicts, v) lc rgb word(colours, v)
}
set xtics norotate center autofreq
set xlabel "listed pairs"
set ylabel "credited " . what
set key off
set grid ytics
set yrange [0:most(1, credited) * 1.05]
set xrange [0:most(1, pairs) * 1.02]
do for [k = 1:runs] { plot growth(ARGV[k]) using 1:2 with steps lw 2 lc rgb "#3a7d44" }
unset multiplot
