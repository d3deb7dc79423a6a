# gnuplot slack.gp: draws the slack of table.tsv against the budget, a colour for each number of T0's slots, as slack.svg.
set terminal svg size 900,600
set output 'slack.svg'
set datafile separator '\t'
set xlabel 'budget of a period, in cycles (2,000 ns)'
set ylabel 'slack: budget less bound, in cycles'
set logscale x 2
set grid
set key left top title 'slots of T0'
turns(slots) = sum [slot = 1:8] (substr(slots, slot, slot) eq 'T' ? 1 : 0)
plot for [count = 1:8] 'table.tsv' every ::1 \
    using (turns(strcol(2)) == count ? column(4) : NaN):7 with points pointtype 7 pointsize 0.4 title sprintf('%d', count), \
    0 with lines linecolor 'black' notitle
