# Draws the numbers of examples/plot/run: a point a storm.
set terminal svg size 760,480 font "sans-serif,14" background "#ffffff"
set output picture
set logscale x 2
set xrange [1.6:80]
set xtics (2, 4, 8, 16, 32, 64)
set xlabel "clients of a storm (8 resources, up to 8 acquired by each transaction)"
set ylabel "per 100 transactions"
set key top left
set grid
plot numbers using 1:(100 * $3 / $2) with points pointtype 6 linecolor rgb "#1f77b4" title "acquires that waited", \
     numbers using 1:(100 * $4 / $2) with points pointtype 7 linecolor rgb "#d62728" title "deadlocks"
