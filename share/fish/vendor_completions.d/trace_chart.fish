# Completions of trace_chart for fish; written by bin/manuals.
complete -c trace_chart -l help -d 'Print help'
complete -c trace_chart -l version -d 'Print version'
complete -c trace_chart -l output -r -d 'write the chart to FILE, as SVG or PNG by its suffix (.svg, .png), instead of SVG to standard output; on an error FILE is not written'
complete -c trace_chart -l from -r -d 'draw the events from PLACE on'
complete -c trace_chart -l to -r -d 'draw the events up to PLACE'
complete -c trace_chart -l player -r -d 'the command that plays traces'
complete -c trace_chart -l server -r -d 'the command that serves a meter'
