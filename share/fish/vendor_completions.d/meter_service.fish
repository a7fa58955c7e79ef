# Completions of meter_service for fish; written by bin/manuals.
complete -c meter_service -l help -d 'Print help'
complete -c meter_service -l version -d 'Print version'
complete -c meter_service -l server -r -d 'run COMMAND instead of meter_server next to this script'
