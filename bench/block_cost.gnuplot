# Draws docs/block_cost.svg from block_cost.tsv, in this folder.
set terminal svg size 760,480 font "sans-serif,13" background "white"
set output "../docs/block_cost.svg"
set title "What one block costs, the look for deadlocks included"
set xlabel "transactions that wait, in one chain"
set ylabel "processor time of one block"
set logscale x 2
set logscale y 10
set xrange [3.5:4700]
set yrange [0.5:1e11]
set xtics ("4" 4, "16" 16, "64" 64, "256" 256, "1,024" 1024, "4,095" 4095)
set ytics ("1 ns" 1, "10 ns" 10, "100 ns" 100, "1 us" 1e3, "10 us" 1e4, "100 us" 1e5, "1 ms" 1e6, "10 ms" 1e7, "100 ms" 1e8, "1 s" 1e9, \
  "10 s" 1e10, "" 1e11)
set grid
set key left top reverse Left
set style data linespoints
plot "block_cost.tsv" using "waiting":"labels_tail" lc rgb "#1f6fb2" lw 2 pt 9 ps 0.8 \
    title "labels (acquire and settle), block at the tail", \
  "" using "waiting":"labels_head" lc rgb "#1f6fb2" dt 2 pt 8 ps 0.8 title "labels, block at the head: the worst for labels", \
  "" using "waiting":"walk_tail" lc rgb "#c0392b" lw 2 pt 7 ps 0.6 title "walk of the wait-for graph, block at the tail: the worst for walks", \
  "" using "waiting":"walk_head" lc rgb "#c0392b" dt 2 pt 6 ps 0.6 title "walk of the wait-for graph, block at the head", \
  "" using "waiting":"berkeley" lc rgb "#555555" lw 2 pt 5 ps 0.6 title "Berkeley DB 5.3, one run of its detector"
