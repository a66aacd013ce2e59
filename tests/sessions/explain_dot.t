Drawings of scripts.

  $ printf 'card sd\nsend 0 { else { } }\nfault stop\n' > a.sdv; sdv explain --dot a.sdv
  digraph script {
      graph [nodesep=0.4];
      node [shape=box, fontname="monospace"];
      edge [fontname="monospace"];
      0 [label="line 2, point 0\nCMD0"];
      1 [label="line 3, point 1\nfault stop", style=rounded, color=gray50, fontcolor=gray30];
      0 -> 1 [label=" "];
  }
  $ printf 'card sd send 7 { else { } } fault stop' > refused.sdv; sdv explain --dot refused.sdv
  digraph script {
      graph [nodesep=0.4];
      node [shape=box, fontname="monospace"];
      edge [fontname="monospace"];
      0 [label="line 1, point 0\nCMD7\nrefused Illegal", color=red, fontcolor=red, penwidth=2];
      1 [label="line 1, point 1\nfault stop", style=rounded, color=gray50, fontcolor=gray30];
      0 -> 1 [label=" "];
  }
  refused Illegal point 0 shape 0000000000002000
  [1]
  $ printf 'card sd\nsend 16 @\n' > wrong.sdv; sdv explain --dot wrong.sdv
  script fault Token line 2
  [1]

A drawing is of the script alone, and it alone leaves faults out.

  $ sdv explain a.sdv a.cert --dot; sdv explain a.sdv --dot --why; sdv explain a.sdv --no-faults
  usage: --dot goes with neither CERT nor --why: sdv explain SCRIPT [CERT] [--why] [--dot] [--no-faults]
  usage: --dot goes with neither CERT nor --why: sdv explain SCRIPT [CERT] [--why] [--dot] [--no-faults]
  usage: --no-faults needs --dot: sdv explain SCRIPT [CERT] [--why] [--dot] [--no-faults]
  [2]

No file, or nowhere to write.

  $ sdv explain --dot a.sdv > /dev/full
  [2]
  $ sdv explain --dot missing.sdv
  cannot use missing.sdv
  [2]

The way to what is refused is red, and faults may be left out.

  $ printf 'card sd\nsend 0 { else { } }\nsend 8 { echo { } else { fault old } }\nsend 7 { else { } }\ndone\n' > way.sdv
  $ sdv explain --dot way.sdv
  digraph script {
      graph [nodesep=0.4];
      node [shape=box, fontname="monospace"];
      edge [fontname="monospace"];
      0 [label="line 2, point 0\nCMD0"];
      1 [label="line 3, point 1\nCMD8"];
      2 [label="line 3, point 2\nfault old", style=rounded, color=gray50, fontcolor=gray30];
      3 [label="line 4, point 3\nCMD7\nrefused Illegal", color=red, fontcolor=red, penwidth=2];
      4 [label="line 5, point 4\ndone", shape=ellipse, style=bold];
      0 -> 1 [label=" ", color=red, fontcolor=red, penwidth=2];
      1 -> 3 [label=" echo", color=red, fontcolor=red, penwidth=2];
      1 -> 2 [label=" else"];
      3 -> 4 [label=" "];
  }
  refused Illegal point 3 shape 0000000000002000
  [1]
  $ sdv explain --dot way.sdv --no-faults
  digraph script {
      graph [nodesep=0.4];
      node [shape=box, fontname="monospace"];
      edge [fontname="monospace"];
      0 [label="line 2, point 0\nCMD0"];
      1 [label="line 3, point 1\nCMD8"];
      3 [label="line 4, point 3\nCMD7\nrefused Illegal", color=red, fontcolor=red, penwidth=2];
      4 [label="line 5, point 4\ndone", shape=ellipse, style=bold];
      0 -> 1 [label=" ", color=red, fontcolor=red, penwidth=2];
      1 -> 3 [label=" echo", color=red, fontcolor=red, penwidth=2];
      3 -> 4 [label=" "];
  }
  refused Illegal point 3 shape 0000000000002000
  [1]
