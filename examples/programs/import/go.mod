module importer

go 1.19
