module pendratsoa.dev/pendratsoa

go 1.19
