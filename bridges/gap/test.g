#############################################################################
##
##  test.g    tests of cohere.g, which bridges/test runs
##
##  Answers are compared with what is known of them, and with GRAPE where it is
##  installed. The last line tells how many passed, failed and were skipped; GAP
##  ends with status 1 where one failed.
##

BreakOnError := false;
OnBreak := Ignore;
# (errors that are wanted are not printed)
SilentNonInteractiveErrors := true;
COUNTS := rec(passed := 0, failed := 0, skipped := 0);

Fail := function(name, why)
  COUNTS.failed := COUNTS.failed + 1;
  Print("FAILED: ", name, ": ", why, "\n");
end;

# Compares what the function gives with what is to come.
Expect := function(name, ask, wanted)
  local got;
  COHERE_LAST.said := "";
  got := CALL_WITH_CATCH(ask, []);
  if not got[1] then
    Fail(name, "an error");
  elif got[2] = wanted then
    COUNTS.passed := COUNTS.passed + 1;
  else
    Fail(name, [got[2], " and not ", wanted]);
  fi;
end;

# Sees that the function ends with an error of this text.
ExpectError := function(name, ask, text)
  COHERE_LAST.said := "";
  if CALL_WITH_CATCH(ask, [])[1] or PositionSublist(COHERE_LAST.said, text) = fail then
    Fail(name, COHERE_LAST.said);
  else
    COUNTS.passed := COUNTS.passed + 1;
  fi;
end;

cube := CohereClosure("Gr`HOk");
yes := rec(homogeneous := true, symmetric := true, commutative := true, thin := false, primitive := false);
complete := [[1, 2, 2, 2], [2, 1, 2, 2], [2, 2, 1, 2], [2, 2, 2, 1]];

Expect("sizes", function() return [cube.points, cube.rank]; end, [8, 4]);
Expect("matrix", function() return cube.matrix[1]; end, [1, 2, 2, 3, 2, 3, 3, 4]);
Expect("fibres", function() return CohereFibres(cube); end, [[1 .. 8]]);
Expect("classes", function() return CohereClasses(cube)[3]; end,
  rec(size := 24, valency := 3, transpose := 3, pair := [1, 4], fibres := [1, 1]));
Expect("constants", function() return CohereConstants(cube)[2][2]; end, [3, 0, 2, 0]);
Expect("tests", function() return CohereTests(cube); end, yes);
Expect("array", function() return CohereArray(cube, [2]); end, rec(b := [3, 2, 1], c := [1, 2, 3]));
Expect("disconnected", function() return CohereArray(cube, [4]); end, rec(disconnected := [1, 2]));
Expect("irregular", function() return CohereArray(CohereClosure("DQc"), [5, 10, 7, 12]); end,
  rec(irregular := [[1, 3], [1, 5]]));
Expect("closed subsets", function() return CohereClosedSubsets(cube); end, [[1], [1, 3], [1, 4], [1, 2, 3, 4]]);
Expect("good subsets", function() return CohereGoodSubsets(cube); end,
  [[1], [2], [3], [2, 3], [4], [2, 4], [2, 3, 4]]);
Expect("quotient", function() return CohereQuotient(cube, [1, 4]).matrix; end, complete);
Expect("subscheme", function() return CohereSubscheme(cube, 1, [1, 3]).matrix; end, complete);
Expect("direct product", function() return CohereDirectProduct(CohereClosure("A_"), "A_").matrix; end,
  [[1, 2, 3, 4], [2, 1, 4, 3], [3, 4, 1, 2], [4, 3, 2, 1]]);
Expect("wreath product", function() return CohereWreathProduct(CohereClosure("A_"), [[0, 1], [1, 0]]).matrix; end,
  [[1, 2, 3, 2], [2, 1, 2, 3], [3, 2, 1, 2], [2, 3, 2, 1]]);
Expect("fusions", function() return CohereFusions(cube); end,
  [[[1], [2, 3, 4]], [[1], [2, 3], [4]], [[1], [2, 4], [3]], [[1], [2], [3], [4]]]);
Expect("fuse", function() return CohereFuse(cube, [[1], [2, 3], [4]]).rank; end, 3);
Expect("close", function() return CohereClose(cube, [[1], [2], [3, 4]]); end, [[1], [2], [3], [4]]);
Expect("check", function() return CohereCheck(CohereTrace(cube)).accepted; end, true);
Expect("refused trace", function() return CohereCheck("trace 1\npoints 1\nstage\n0\nD 0\nclosure\n0\nend\n"); end,
  rec(accepted := false, line := 5, word := "IdleStep"));
Expect("closure of a closure", function() return CohereClosure(cube).matrix = cube.matrix; end, true);
# Errors count from 1, and have a hint.
ExpectError("bad relation", function() CohereClosure("DQd"); end,
  "CohereClosure( M ): relation: PadBits at 2: the last character");
ExpectError("row of a matrix", function() CohereClosure("matrix 2\n0 1\n1\n"); end, "MatrixCount at 14 (row 2): ");
ExpectError("name of a file", function() CohereClosure("examples/x.g6"); end, "StringFile(\"examples/x.g6\")");
ExpectError("sparse6", function() CohereClosure(":An"); end, "sparse6");
ExpectError("a list as a text", function() CohereClosure("[[0,1],[1,0]]"); end, "hand over the list itself");
ExpectError("too many points", function() CohereClosure("~?CB"); end, "a graph of 259 points");
ExpectError("no square", function() CohereClosure([[1, 2], [3]]); end, "row 2 is none of 2");
ExpectError("bad product", function() CohereDirectProduct(cube, "DQd"); end, "second factor: PadBits at 2");
ExpectError("refused line", function() CohereQuotient(cube, [1, 2]); end,
  "CohereQuotient( c, [ 1, 2 ] ): refused NotClosed: ");
ExpectError("refused array", function() CohereArray(cube, [1]); end, "CohereArray( c, [ 1 ] ): refused BadSet: ");
ExpectError("no class", function() CohereArray(cube, [5]); end, "there is no class 5; classes are numbered from 1 to the rank, 4");
ExpectError("class 0", function() CohereArray(cube, 0); end, "there is no class 0");
ExpectError("no set", function() CohereArray(cube, []); end, "a list of them that is not empty");
ExpectError("no point", function() CohereSubscheme(cube, 9, [1, 3]); end, "there is no point 9; points are numbered from 1 to 8");
ExpectError("no partition", function() CohereFuse(cube, [[1], [2, 3]]); end, "each class from 1 to 4 once, and not so class 4");
ExpectError("class 0 in a block", function() CohereClose(cube, [[0], [1, 2, 3]]); end, "there is no class 0");
ExpectError("bad trace", function() CohereCheck("trace 1\npoints 1\n"); end, "line 3 Stage: ");

# One class stands for the set of it.
Expect("one class", function() return CohereArray(cube, 2); end, rec(b := [3, 2, 1], c := [1, 2, 3]));

# Constants
path := CohereClosure("DQc");
Expect("constants, one by one", function()
  local p;
  p := CohereConstants(path);
  return ForAll([1 .. 13], i -> ForAll([1 .. 13], j -> ForAll([1 .. 13], k -> CohereConstant(path, i, j, k) = p[i][j][k])));
end, true);
Expect("constants of a class", function() return CohereConstantsOf(cube, 3); end,
  [[1, 3, 1], [2, 2, 2], [2, 4, 1], [3, 1, 1], [3, 3, 2], [4, 2, 1]]);
Expect("listed constants", function()
  return Set(CohereConstantsList(path)) = Set(Concatenation(List([1 .. 13],
    k -> List(CohereConstantsOf(path, k), it -> [it[1], it[2], k, it[3]]))));
end, true);
high := CohereClosure(List([1 .. 40], x -> List([1 .. 40], y -> 40 * x + y)));
Expect("a high rank", function() return [high.rank, Length(CohereConstantsList(high))]; end, [1600, 64000]);
ExpectError("constants of a high rank", function() CohereConstants(high); end, "CohereConstantsList( c ) has those");

# Colours and classes
Expect("classes of a colour", function() return List([0 .. 3], colour -> CohereClassesOf(path, colour)); end,
  [[1, 2, 3], [5, 7, 10, 12], [4, 6, 8, 9, 11, 13], []]);
Expect("colour of a class", function() return List([1, 4, 5], k -> CohereColourOf(path, k)); end, [0, 2, 1]);
Expect("graph6", function() return CohereGraph6(path, CohereClassesOf(path, 1)); end, "DQc");
Expect("digraph6", function() return CohereDigraph6(CohereClosure("&BP_"), 2); end, "&BP_");

# Sessions
Expect("session", function()
  local s, said;
  s := CohereSession("Dhc");
  said := [CohereFix(s, 1), CohereTests(s).homogeneous, CohereUndo(s), CohereTests(s).homogeneous, CohereRedo(s)];
  return [said, s.rank, s.edits, s.matrix[1]];
end, [[rec(points := 5, rank := 13), false, rec(points := 5, rank := 3), true, rec(points := 5, rank := 13)],
      13, ["fix 0"], [1, 4, 5, 5, 4]]);
Expect("edits", function()
  local s;
  s := CohereSession("Dhc");
  CohereBoth(s, 1, 2, 9);
  CohereJoin(s, 9, 1);
  CohereUndo(s);
  CohereSet(s, 3, 3, 7);
  return [s.rank, s.edits, CohereRaw(s)[1], CohereRaw(s)[3][3]];
end, [25, ["both 0 1 9", "set 2 2 7"], [0, 9, 2, 2, 1], 7]);
Expect("products and mergings in a session", function()
  local s;
  s := CohereSession("A_");
  CohereDirectProduct(s, "Dhc");
  CohereUndo(s);
  CohereWreathProduct(s, [[0, 1], [1, 0]]);
  CohereFuse(s, [[1], [2, 3]]);
  CohereAdopt(s);
  return [s.points, s.rank, s.edits, CohereCheck(CohereTrace(s)).accepted];
end, [4, 2, ["wreath product", "fuse 0 1 1", "adopt"], true]);
Expect("traces of a session", function()
  local s, stages;
  stages := trace -> Number(SplitString(trace, "\n"), line -> line = "stage");
  s := CohereSession("Dhc");
  CohereFix(s, 1);
  CohereFix(s, 2);
  Assert(0, CohereCheck(CohereTrace(s, 2)).accepted and CohereCheck(CohereTrace(s)).accepted);
  # (the last edit but one does more than refine)
  return [stages(CohereTrace(s)), stages(CohereTrace(s, 2)), CohereJoin(s, 1, 2).rank > 0, CohereFix(s, 3).points,
          stages(CohereTrace(s)), CohereCheck(CohereTrace(s)).accepted, CohereTrace(cube, 2){[1 .. 7]}];
end, [3, 3, true, 5, 2, true, "trace 2"]);
Expect("products in the trace of a session", function()
  local s;
  s := CohereSession("@");
  CohereAdopt(s);
  CohereDirectProduct(s, "Dhc");
  CohereAdopt(s);
  CohereDirectProduct(s, "A_");
  CohereAdopt(s);
  return [s.points, CohereCheck(CohereTrace(s)).accepted, CohereCheck(CohereTrace(s)).rank = s.rank];
end, [10, true, true]);
ExpectError("no undo", function() CohereUndo(CohereSession("Dhc")); end, "refused NothingToUndo: ");
ExpectError("no point to fix", function() CohereFix(CohereSession("Dhc"), 0); end, "CohereFix( s, 0 ): there is no point 0");
ExpectError("no session", function() CohereFix(cube, 1); end, "CohereSession( M ) gives it");
ExpectError("no colour", function() CohereSet(CohereSession("Dhc"), 1, 1, -1); end, "-1 is no colour");
ExpectError("absent colour", function() CohereJoin(CohereSession("Dhc"), 1, 9); end, "refused ColourAbsent: ");

# Orbitals of groups
Generated := function(points, maps)
  return Group(List(maps, one -> PermList(List(points, it -> Position(points, one(it))))));
end;
shrikhande := Generated(Tuples([0 .. 3], 2),
  [it -> (it + [1, 0]) mod 4, it -> [it[1] - it[2], it[1]] mod 4, Reversed]);
clebsch := Generated(Filtered(Tuples([0, 1], 5), it -> Sum(it) mod 2 = 0), [it -> (it + [1, 1, 0, 0, 0]) mod 2,
  it -> it{[2, 3, 4, 5, 1]}, it -> it{[2, 1, 3, 4, 5]}]);
pairs := Combinations([1 .. 5], 2);
edges := Filtered(Combinations(pairs, 2), it -> Intersection(it) = []);
of168 := PSL(2, 7);
cosets := RightCosets(of168, Normalizer(of168, SylowSubgroup(of168, 3)));
for row in [["the Petersen graph", [SymmetricGroup(5), pairs, OnSets], 10, 3, 2],
            ["its edges", [SymmetricGroup(5), edges, OnSetsSets], 15, 4, 4],
            ["J(8,3)", [SymmetricGroup(8), Combinations([1 .. 8], 3), OnSets], 56, 4, 2],
            ["PSL(2,7) on 28 points", [of168, cosets, OnRight], 28, 7, 8],
            ["the Shrikhande graph", [shrikhande], 16, 4, 5],
            ["the Clebsch graph", [clebsch], 16, 3, 2],
            ["three orbits", [Group((1, 2, 3), (4, 5)), [1 .. 6]], 6, 12, fail],
            ["points of any names", [Group((2, 7), (2, 9)), [9, 7, 2]], 3, 2, 1],
            ["no generator", [Group([], ()), [1, 2]], 2, 4, 2]] do
  Expect(Concatenation("orbitals of ", row[1]), function()
    local c, orbits;
    c := CallFuncList(CohereOrbitals, row[2]);
    Assert(0, CohereRaw(c) = c.matrix - 1 and CohereClosure(c).matrix = c.matrix);
    # (12 classes have many fusions)
    if row[5] = fail then return [c.points, c.rank, fail]; fi;
    return [c.points, c.rank, Length(CohereFusions(c))];
  end, row{[3, 4, 5]});
od;
Expect("orbitals of each group on 6 points, up to conjugacy", function()
  return Number(List(ConjugacyClassesSubgroups(SymmetricGroup(6)), Representative), function(group)
    local c;
    c := CohereOrbitals(group, [1 .. 6]);
    # (as many as an element fixes pairs, on the average)
    return CohereRaw(c) = c.matrix - 1
      and c.rank * Size(group) = Sum(group, g -> (6 - NrMovedPoints(g))^2);
  end);
end, 56);
Expect("a group is a relation", function()
  return CohereClosure(shrikhande) = CohereOrbitals(shrikhande, [1 .. 16])
    and CohereSession(shrikhande).rank = 4 and CohereDirectProduct(cube, Group((1, 2))).points = 16;
end, true);
Expect("a group on 256 points", function()
  return [CohereOrbitals(Group((1, 2), PermList(Concatenation([2 .. 256], [1])))).rank,
          CohereOrbitals(Group(List([1 .. 128], it -> (2 * it - 1, 2 * it)))).rank];
end, [2, 2 * 128 + 128 * 127]);
ExpectError("a trivial group", function() CohereOrbitals(Group(())); end, "moves no point; CohereOrbitals( G, points )");
ExpectError("points that are moved away", function() CohereOrbitals(Group((1, 2, 3)), [1, 2]); end,
  "(1,2,3) does not map the list of points to itself");
ExpectError("points twice", function() CohereOrbitals(Group((1, 2)), [1, 2, 1]); end, "has none twice");
ExpectError("no group", function() CohereOrbitals([(1, 2)]); end, "this is for a group of permutations");
ExpectError("a group of matrices", function() CohereOrbitals(GL(2, 2)); end, "CohereOrbitals( G, points, action )");
ExpectError("a group on 257 points", function() CohereClosure(Group((1, 257))); end, "at most 256 points");

# Closed subsets that classes generate
Expect("generated closed subsets", function()
  return List([1, 2, 3, [3, 4], 4], set -> CohereGenerated(cube, set));
end, [[1], [1 .. 4], [1, 3], [1 .. 4], [1, 4]]);
Expect("the least of the closed subsets", function()
  return ForAll([path, cube, CohereOrbitals(CyclicGroup(IsPermGroup, 12))], c -> ForAll([1 .. c.rank],
    k -> CohereGenerated(c, k) = Intersection(Filtered(CohereClosedSubsets(c), it -> k in it))));
end, true);
Expect("a generated closed subset of a high rank", function()
  local c, set;
  c := CohereOrbitals(Group(PermList(Concatenation([2 .. 60], [1]))));
  set := CohereGenerated(c, [13, 21]);
  return [c.rank, Length(set), CohereQuotient(c, set).points];
end, [60, 15, 4]);
ExpectError("no class to generate", function() CohereGenerated(cube, 5); end, "there is no class 5");

# Schur rings
cyclic := Group((1, 2, 3, 4, 5, 6));
turn := cyclic.1;
Expect("a ring", function() return Set(CohereRing(cyclic, [turn, turn^5]), Set); end,
  Set([[()], [turn, turn^5], [turn^2, turn^4], [turn^3]], Set));
Expect("a ring that two sets generate", function() return Length(CohereRing(cyclic, [[turn^3], [turn^2, turn^4]])); end, 4);
Expect("a ring over a table", function()
  return CohereRing(List([0 .. 5], x -> List([0 .. 5], y -> (x + y) mod 6 + 1)), [2, 6]);
end, [[1], [2, 6], [3, 5], [4]]);
Expect("the ring of no set", function() return List(CohereRing(cyclic, []), Length); end, [1, 5]);
# The classes of a group are basic sets of a ring, and so are the orbits of its automorphisms.
Expect("rings of classes and of automorphisms", function()
  return ForAll(Concatenation(List([2 .. 16], n -> AllSmallGroups(n))), function(group)
    local classes, orbits;
    classes := Set(ConjugacyClasses(group), AsSet);
    orbits := Set(Orbits(AutomorphismGroup(group), AsList(group)), Set);
    return Set(CohereRing(group, classes), Set) = classes and Set(CohereRing(group, orbits), Set) = orbits;
  end);
end, true);
Expect("elements that are matrices", function()
  local basic;
  basic := CohereRing(GL(2, 2), Filtered(AsList(GL(2, 2)), it -> Order(it) = 3));
  return [basic[1], SortedList(List(basic, Length))];
end, [[One(GL(2, 2))], [1, 2, 3]]);
Expect("all rings over cyclic groups", function()
  return List([1 .. 16], function(n)
    local group;
    group := CyclicGroup(IsPermGroup, n);
    return Length(CohereFusions(CohereOrbitals(group, AsList(group), OnRight)));
  end);
end, [1, 1, 2, 3, 3, 7, 4, 10, 7, 10, 4, 32, 6, 13, 21, 37]);
ExpectError("no table of a group", function() CohereRing([[2, 1], [1, 2]], [2]); end,
  "CohereRing( G, sets ): refused NotGroup: this is no table of products with the unit 1");
ExpectError("no element", function() CohereRing(cyclic, [(1, 2)]); end, "a set is a list of elements");
ExpectError("no set", function() CohereRing(cyclic, turn); end, "a set is a list of elements");
ExpectError("a large group", function() CohereRing(SymmetricGroup(6), [(1, 2)]); end, "order 720");

# Cells
Expect("cells of a path", function() return CohereCells("FhCGG", 1); end, [[1, 7], [2, 6], [3, 5], [4]]);
Expect("cells of a configuration", function()
  return CohereCells(path, CohereClassesOf(path, 1)) = CohereCells("DQc", 1);
end, true);
Expect("cells are checked", function() return CohereCheckCells(CohereCellsTrace("Bg", 1)); end,
  rec(accepted := true, points := 3, cells := 2, steps := 1));
Expect("cells that are refused", function()
  return CohereCheckCells(ReplacedString(CohereCellsTrace("Bg", 1), "S 0 0\n", "S 0 0\nS 0 0\n"));
end, rec(accepted := false, line := 7, word := "IdleStep"));
ExpectError("no such arcs", function() CohereCells("Bg", [1, 9]); end,
  "CohereCells( M, [ 1, 9 ] ): refused BadSet: the arcs have colours of pairs");
ExpectError("no colours", function() CohereCells("Bg", []); end, "colours are a list that is not empty");
ExpectError("no class", function() CohereCells(cube, 5); end, "there is no class 5");
ExpectError("a bad graph", function() CohereCells("DQd", 1); end, "relation: PadBits at 2");
ExpectError("a bad trace of cells", function() CohereCheckCells("trace 1\n"); end, "line 1 Head: a trace of cells begins");

# Tables of arrays
Expect("a table is that of the graph", function()
  local table;
  # (the class of the cube at distance i is i + 1)
  table := CohereTable(CohereArray(cube, 2));
  return [table.points, table.valencies, table.p = CohereConstants(cube)];
end, [8, [1, 3, 3, 1], true]);
Expect("arrays that are refused", function()
  return List([[[3], [2]], [[2, 2], [1, 1]], [[5, 3], [1, 4]], [[200, 199], [1, 1]], [[10, 1], [1, 5]],
               [[4, 3, 1], [1, 2, 3]]], function(it)
    local table;
    table := CohereTable(rec(b := it[1], c := it[2]));
    return [table.refused, table.at, table.hint <> ""];
  end);
end, [["FirstC", [], true], ["Parts", [1], true], ["Valency", [2], true], ["TooManyPoints", [2], true],
      ["Negative", [2, 2, 2], true], ["Division", [2, 2, 1], true]]);
ExpectError("no array", function() CohereTable(rec(b := [3, 2], c := [1])); end, "as many b as c");
ExpectError("a large number", function() CohereTable(rec(b := [256], c := [1])); end, "from 1 to 255");

# The lattice of the fusions
Expect("the lattice of the cube", function() return CohereLattice(cube); end,
  rec(fusions := CohereFusions(cube), covers := [[2, 1], [3, 1], [4, 2], [4, 3]]));
Expect("meets", function()
  return List([[1, 2], [2, 3], [3, 3], [4, 1]], it -> CohereMeet(cube, it[1], it[2]));
end, [2, 4, 3, 4]);
ExpectError("no fusion", function() CohereMeet(cube, 1, 5); end,
  "CohereMeet( c, 1, 5 ): refused PlaceRange: there is no such fusion; they are numbered from 1");
ExpectError("fusion 0", function() CohereMeet(cube, 0, 1); end, "numbered from 1");
ExpectError("too many fusions", function()
  local group;
  group := ElementaryAbelianGroup(16);
  CohereLattice(CohereOrbitals(group, AsList(group), OnRight));
end, "refused TooManyFusions: a lattice has at most 300 fusions");

# Reading the file once more takes what stands in it.
Expect("read again", function()
  Read(Concatenation(COHERE_HERE, "cohere.g"));
  return CohereClosure("Dhc").rank;
end, 3);
Expect("the program is looked for once", function()
  local shell, asked;
  asked := COHERE_FOUND.program;
  CohereClosure("Dhc");
  return [IsString(asked), IsExecutableFile(asked), EndsWith(asked, "bin/cohere")];
end, [true, true, EndsWith(COHERE_FOUND.program, "bin/cohere")]);

if LoadPackage("grape") = true then
  # Orbitals of the whole group of automorphisms are a configuration that refines the graph, so they refine
  # its closure. Ranks are equal for the Petersen graph and the cubes, and 3 against 4 for Shrikhande's.
  Orbitals := function(gamma)
    local group, matrix, orbits, k, pair;
    group := AutGroupGraph(gamma);
    orbits := Orbits(group, Tuples([1 .. gamma.order], 2), OnPairs);
    matrix := NullMat(gamma.order, gamma.order);
    for k in [1 .. Length(orbits)] do
      for pair in orbits[k] do matrix[pair[1]][pair[2]] := k; od;
    od;
    return rec(rank := Length(orbits), matrix := matrix);
  end;
  Refines := function(fine, coarse)
    return Size(Set(Concatenation(List([1 .. Length(fine)], x -> List([1 .. Length(fine)],
      y -> [fine[x][y], coarse[x][y]]))))) = Size(Set(Concatenation(fine)));
  end;
  # Bits of a difference are few for the cubes; differences are those of the Cayley graph for Shrikhande's.
  Cube := d -> Graph(Group(()), Tuples([0, 1], d), function(v, g) return v; end,
    function(v, w) return Number([1 .. d], at -> v[at] <> w[at]) = 1; end, true);
  Steps := [[0, 1], [0, 3], [1, 0], [3, 0], [1, 1], [3, 3]];
  Shrikhande := Graph(Group(()), Tuples([0 .. 3], 2), function(v, g) return v; end,
    function(v, w) return (v - w) mod 4 in Steps; end, true);
  Petersen := ComplementGraph(JohnsonGraph(5, 2));
  for row in [["Petersen graph", Petersen, 3, 3], ["3-cube", Cube(3), 4, 4], ["4-cube", Cube(4), 5, 5],
              ["Shrikhande graph", Shrikhande, 3, 4]] do
    Expect(Concatenation("orbitals of the ", row[1]), function()
      local closure, orbitals;
      closure := CohereClosure(row[2]);
      orbitals := Orbitals(row[2]);
      return [closure.rank, orbitals.rank, Refines(orbitals.matrix, closure.matrix)];
    end, [row[3], row[4], true]);
  od;
  Expect("graph for GRAPE", function()
    local gamma;
    gamma := CohereGraph(CohereClosure(Petersen), [3]);
    return [gamma.order, GlobalParameters(gamma)];
  end, [10, [[0, 0, 3], [1, 0, 2], [1, 2, 0]]]);
else
  COUNTS.skipped := 5;
  Print("skipped, for want of GRAPE: orbitals, and the graph of a class\n");
  ExpectError("graph without GRAPE", function() CohereGraph(cube, 2); end, "needs the package GRAPE, which is not installed");
fi;

Print("gap: ", COUNTS.passed, " passed, ", COUNTS.failed, " failed, ", COUNTS.skipped, " skipped\n");
QuitGap(COUNTS.failed = 0);
