# as topology collections have it
graph [
  directed 0
  label "Andes"
  node [
    id 0
    label "Lima, centre"
    graphics [ x 12.0 y 3.5 ]
  ]
  node [ id 1 label "Cusco" ]
  node [ id 2 label "Puno" ]
  node [ id 3 label "Tacna" ]
  edge [ source 0 target 1 LinkLabel "STM-4" ]
  edge [ source 1 target 2 ]
  edge [ source 2 target 0 ]
  edge [ source 2 target 3 ]
]
