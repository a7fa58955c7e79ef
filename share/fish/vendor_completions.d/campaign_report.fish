# Completions of campaign_report for fish; written by bin/manuals.
complete -c campaign_report -l help -d 'Print help'
complete -c campaign_report -l version -d 'Print version'
complete -c campaign_report -l output -r -d 'write the page to FILE instead of standard output; on an error FILE is not written'
complete -c campaign_report -l title -r -d 'title of the page'
complete -c campaign_report -l head-end -r -d 'the command that reads ledgers'
