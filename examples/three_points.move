mixedcells 1
dim 1
support 3
0 : 0
1 : -2
3 : 0
end
cells 2
cell 1 2 : 2 / 1
cell 2 3 : -1 / 1
end
heights 0 5 0
end
