# Draws the growth tables. Needs `data`, the file that the benchmark writes, and `drawing`, where the SVG goes.
set terminal svg size 1120,360 font "sans-serif,12" background "white" noenhanced
set output drawing
set multiplot layout 1,2
set ylabel "nanoseconds a call"
set yrange [0:*]
set grid ytics
set key left top Left reverse
set title "By items"
set xlabel "items in the section"
set xrange [0:260]
set xtics 50
plot data index 0 using 1:2 with linespoints lt 1 title "literals", \
     data index 0 using 1:3 with linespoints lt 1 dashtype 2 title "literals, short room", \
     data index 1 using 1:2 with linespoints lt 2 title "places", \
     data index 1 using 1:3 with linespoints lt 2 dashtype 2 title "places, short room"
set title "By sections"
set xlabel "sections of 0.00 (the fourth: @)"
set xrange [0.5:4.5]
set xtics 1
set key left bottom
plot data index 2 using 1:2 with linespoints lt 1 title "ample room", \
     data index 2 using 1:3 with linespoints lt 1 dashtype 2 title "short room"
unset multiplot
