# Draws the pictures of a report from the columns of a log, in the folder where these are: gnuplot -e 'target=MS' pictures.gp
set datafile missing '.'
set datafile separator "\t"
set terminal svg size 960,230 font 'sans-serif,12' background '#ffffff'
data = 'columns'
set key outside right top
set grid ytics lc rgb '#dddddd'
set border 3 lc rgb '#444444'
set tics nomirror
set xlabel 'seconds since the log began'
set yrange [0:1<*]
set lmargin 12
set rmargin 24
set xrange [0:0.001<*]

set output 'bytes.svg'
set ylabel 'bytes queued'
plot data using 1:2:3 with filledcurves lc rgb '#a9c4e6' title 'range', data using 1:3 with lines lc rgb '#1f4e8c' title 'most'

set output 'delay.svg'
set ylabel 'delay, ms'
plot data using 1:4:5 with filledcurves lc rgb '#a9d8b8' title 'range', data using 1:5 with lines lc rgb '#1d6b3a' title 'most', \
    target with lines dt 2 lc rgb '#888888' title 'target'

set output 'probability.svg'
set ylabel 'probability, %'
plot data using 1:6:7 with filledcurves lc rgb '#f0c9a4' title 'range', data using 1:7 with lines lc rgb '#a8560c' title 'most'

set output 'allowance.svg'
set ylabel 'allowance, ms'
set yrange [0:160]
plot data using 1:8:9 with filledcurves lc rgb '#d9c5e8' title 'range', data using 1:9 with lines lc rgb '#5e2e86' title 'most'
set yrange [0:1<*]

# The dots, of a colour that is not seen, make the picture as wide as the others, also where there is nothing else to draw.
set output 'shed.svg'
unset ylabel
set yrange [0.5:4.5]
set ytics ('dropped: slots' 1, 'dropped: bytes' 2, 'marked' 3, 'dropped early' 4)
row(kind, place) = kind > 0 ? place : 1/0
plot data using 1:(row($14, 4)) with points pt 5 ps 0.5 lc rgb '#c0392b' notitle, \
    data using 1:(row($11, 3)) with points pt 5 ps 0.5 lc rgb '#e69f00' notitle, \
    data using 1:(row($12, 2)) with points pt 5 ps 0.5 lc rgb '#2c3e50' notitle, \
    data using 1:(row($13, 1)) with points pt 5 ps 0.5 lc rgb '#16a085' notitle, \
    data using 1:(0.5) with dots lc rgb '#ffffffff' notitle
set ytics auto
set yrange [0:1<*]

set output 'ticks.svg'
set ylabel 'tick late by, ms'
plot data using 1:15 with impulses lw 1.5 lc rgb '#7f8c8d' title 'latest tick', data using 1:(0) with dots lc rgb '#ffffffff' notitle
