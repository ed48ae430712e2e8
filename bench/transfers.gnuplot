# Draws docs/transfers.svg from transfers.tsv, in this folder.
set terminal svg size 900,460 font "sans-serif,13" background "white"
set output "../docs/transfers.svg"
set multiplot layout 1,3 title "Transactions of four locks by name, in random order" margins 0.14,0.98,0.30,0.84 spacing 0.03
set xlabel "threads"
set logscale x 2
set logscale y 10
set xrange [0.8:20]
set yrange [3e4:2.4e7]
set xtics ("1" 1, "2" 2, "4" 4, "16" 16)
set ytics ("30,000" 3e4, "100,000" 1e5, "300,000" 3e5, "1 million" 1e6, "3 million" 3e6, "10 million" 1e7)
set grid
set style data linespoints
set ylabel "transactions a second"
set key off
count(n) = n == 1 ? "16" : n == 2 ? "1,000" : "65,536"
names(n) = n == 1 ? 16 : n == 2 ? 1000 : 65536
do for [n = 1:3] {
  set title count(n) . " names"
  if (n > 1) { unset ylabel; set ytics ("" 3e4, "" 1e5, "" 3e5, "" 1e6, "" 3e6, "" 1e7) }
  if (n == 2) { set key at screen 0.5, 0.15 center top maxrows 2 samplen 2 width -1 } else { set key off }
  plot "transfers.tsv" using "threads":(column("names") == names(n) ? column("one") : NaN) lc rgb "#1f6fb2" lw 2 pt 9 ps 0.8 title "in Rattle", \
    "" using "threads":(column("names") == names(n) ? column("c") : NaN) lc rgb "#d68910" lw 2 pt 6 ps 0.8 title "from C", \
    "" using "threads":(column("names") == names(n) ? column("plain") : NaN) lc rgb "#c0392b" lw 2 pt 7 ps 0.6 title "plain Rust", \
    "" using "threads":(column("names") == names(n) ? column("berkeley") : NaN) lc rgb "#555555" lw 2 pt 5 ps 0.6 title "Berkeley DB 5.3", \
    "" using "threads":(column("names") == names(n) ? column("rocks") : NaN) lc rgb "#2e8b57" lw 2 pt 13 ps 0.8 title "RocksDB 7.8"
}
unset multiplot
