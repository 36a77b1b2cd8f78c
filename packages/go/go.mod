module gawerunoa

go 1.19
