#############################################################################
##
##  cohere.g    coherent configurations in GAP, by the program 'cohere'
##
##  Read("bridges/gap/cohere.g");
##
##  Every answer is computed by the program, each function of which is proved
##  to meet its contract. This file hands over questions and reads answers;
##  nothing of it is proved.
##
##  Points and classes are numbered from 1 here, as in GRAPE and COCO2P: point
##  x of the program is point x+1, and its class k is class k+1. So a matrix of
##  classes has the entries 1 .. rank. Colours of a matrix that is handed over
##  are any integers from 0 to 1048575.
##
##  A configuration is a record with the components
##    points   the number of points
##    rank     the number of classes
##    matrix   matrix[x][y] is the class of the pair (x,y)
##    text     the relation that it is the closure of, as the program reads it
##
##  A set S of classes is a list of them, or one class. What the program refuses
##  is an error that has its word and a hint, with points and classes counted
##  from 1; COHERE_LAST.said keeps it.
##
##  A session (CohereSession) is a configuration that edits change.
##
##  Of a group of permutations the configuration is that of its orbits on pairs
##  (CohereOrbitals).
##
##  The program is what COHERE names in the environment, else 'cohere' on the
##  PATH, else bin/cohere of the checkout that this file stands in.
##

# Binds a global name, also where the file is read once more.
COHERE_Bind := function(name, value)
  if IsBoundGlobal(name) then
    MakeReadWriteGlobal(name);
    UnbindGlobal(name);
  fi;
  BindGlobal(name, value);
end;

# The folder that this file stands in, with its slash.
COHERE_Bind("COHERE_HERE", CallFuncList(function(name)
  return name{[1 .. Maximum(Concatenation([0], Positions(name, '/')))]};
end, [INPUT_FILENAME()]));

Read(Concatenation(COHERE_HERE, "hints.g"));

# Ends with what the program said of a bad input: 'handed' has the texts that it was handed by their names.
COHERE_Bind("COHERE_Fail", function(ended, asked, handed)
  local said, words, name, word, place;
  said := Chomp(ended.err);
  if said = "" then said := Concatenation("cohere ended with status ", String(ended.status)); fi;
  words := SplitString(said, " ");
  if ended.status <> 3 or Length(words) < 3 then COHERE_Error(asked, ": ", said); fi;
  # 'cohere: NAME: line L WORD', 'cohere: NAME: WORD at PLACE' or 'cohere: NAME: TooLong'
  name := words[2]{[1 .. Length(words[2]) - 1]};
  if name = "script" then
    word := Last(words);
    if words[3] = "line" then
      COHERE_Error(asked, ": line ", words[4], " of the script, '", handed.script[Int(words[4])], "': ", word,
                   COHERE_HintIn(COHERE_OF_SCRIPT, word));
    fi;
    COHERE_Error(asked, ": script: ", word, COHERE_HintIn(COHERE_OF_SCRIPT, word));
  elif asked in ["CohereCheck( trace )", "CohereCheckCells( trace )"] then
    COHERE_Error(asked, ": ", JoinStringsWithSeparator(words{[3 .. Length(words)]}, " "),
                 COHERE_HintIn(handed.hints, Last(words)));
  fi;
  word := words[3];
  said := JoinStringsWithSeparator(words{[3 .. Length(words)]}, " ");
  if Length(words) = 5 then Append(said, COHERE_RowOf(handed.(name), Int(words[5]))); fi;
  COHERE_Error(asked, ": ", handed.(Concatenation("called ", name)), ": ", said, COHERE_RelationHint(handed.(name), word));
end);

# How a question is named in errors.
COHERE_Bind("COHERE_Asked", function(arg)
  local said;
  said := List(arg{[2 .. Length(arg)]}, String);
  said := Concatenation(arg[1], "( ", JoinStringsWithSeparator(Concatenation(["c"], said), ", "), " )");
  if Length(said) > 100 then said := Concatenation(said{[1 .. 90]}, " .. )"); fi;
  return said;
end);

#############################################################################
##
##  Running the program
##

if not IsBoundGlobal("COHERE_FOLDER") then BindGlobal("COHERE_FOLDER", DirectoryTemporary()); fi;

# The program of the checkout that this file stands in.
COHERE_Bind("COHERE_OF_CHECKOUT", Concatenation(COHERE_HERE, "../../bin/cohere"));

COHERE_Bind("COHERE_HOW_TO_BUILD", Concatenation("build it in a checkout of its repository with 'bin/cohere', ",
  "and name it in the environment: COHERE=/path/to/checkout/bin/cohere"));

# Tells which program is meant.
COHERE_Bind("COHERE_Named", function()
  local found;
  if IsBound(GAPInfo.SystemEnvironment.COHERE) and GAPInfo.SystemEnvironment.COHERE <> "" then
    return GAPInfo.SystemEnvironment.COHERE;
  fi;
  found := Filename(DirectoriesSystemPrograms(), "cohere");
  if found <> fail then return found; fi;
  if IsExecutableFile(COHERE_OF_CHECKOUT) then return COHERE_OF_CHECKOUT; fi;
  COHERE_Error("there is no program 'cohere'; ", COHERE_HOW_TO_BUILD);
end);

# Runs a script of sh with these words in a folder, and gives its status and what it wrote on standard output.
COHERE_Bind("COHERE_Shell", function(folder, script, words)
  local out, status;
  out := "";
  status := Process(folder, Filename(DirectoriesSystemPrograms(), "sh"), InputTextNone(), OutputTextString(out, true),
                    Concatenation(["-c", script, "sh"], words));
  return rec(status := status, out := out);
end);

# Takes what bin/cohere of a checkout would run, since that script looks at every source first.
COHERE_Bind("COHERE_FIND", Concatenation(
  "program=$(readlink -f -- \"$(command -v -- \"$1\")\") && [ -x \"$program\" ] || { echo \"there is no program $1\"; exit 70; }\n",
  "top=${program%/*}; [ \"${top##*/}\" = bin ] && [ -f \"${top%/*}/crates.txt\" ] || { echo \"$program\"; exit; }\n",
  "said=$(\"$program\" 2>&1 < /dev/null); [ $? = 70 ] && { echo \"$said\"; exit 70; }\n",
  "kept=; for it in \"${top%/*}\"/build/cohere-*; do [ -f \"$it\" ] && [ -x \"$it\" ] && kept=$kept:$it; done\n",
  "it=${kept#:}; case $it in '' | *:*) echo \"$program\";; *) echo \"$it\";; esac\n"));

# Tells the name of the program, and looks for it once.
COHERE_Bind("COHERE_FOUND", rec(named := fail, program := fail));
COHERE_Bind("COHERE_Program", function()
  local named, found;
  named := COHERE_Named();
  if COHERE_FOUND.named <> named then
    found := COHERE_Shell(DirectoryCurrent(), COHERE_FIND, [named]);
    if found.status <> 0 then COHERE_Error(Chomp(found.out), "; ", COHERE_HOW_TO_BUILD); fi;
    COHERE_FOUND.program := Chomp(found.out);
    COHERE_FOUND.named := named;
  fi;
  return COHERE_FOUND.program;
end);

# Runs the program with these words, the text on its standard input, and gives its status and what it wrote. It runs
# in a folder of our own, in which the records of 'files' are files by their names.
COHERE_Bind("COHERE_Run", function(words, text, files)
  local name, ended;
  FileString(Filename(COHERE_FOLDER, "input"), text);
  for name in RecNames(files) do FileString(Filename(COHERE_FOLDER, name), files.(name)); od;
  ended := COHERE_Shell(COHERE_FOLDER, "exec \"$@\" < input > out 2> err", Concatenation([COHERE_Program()], words));
  return rec(status := ended.status, out := StringFile(Filename(COHERE_FOLDER, "out")),
             err := StringFile(Filename(COHERE_FOLDER, "err")));
end);

# Answers lines over a relation: the lines that the program prints, each without its end. Products stand in 'files',
# by the names that the lines have for them; 'asked' is what the user asked, for errors.
COHERE_Bind("COHERE_AskOver", function(text, lines, files, asked)
  local given, handed, name, ended, answers, line, word;
  given := ShallowCopy(files);
  given.script := JoinStringsWithSeparator(Concatenation(lines, [""]), "\n");
  ended := COHERE_Run(["run", "-", "script"], text, given);
  if ended.status <> 0 then
    handed := rec(script := lines, ("-") := text, ("called -") := "relation");
    for name in RecNames(files) do
      handed.(name) := files.(name);
      handed.(Concatenation("called ", name)) := "second factor";
    od;
    COHERE_Fail(ended, asked, handed);
  fi;
  answers := SplitString(ended.out, "\n");
  for line in answers do
    if StartsWith(line, "refused ") then
      word := line{[9 .. Length(line)]};
      COHERE_Error(asked, ": refused ", word, COHERE_HintIn(COHERE_OF_REFUSAL, word));
    fi;
  od;
  return answers;
end);

COHERE_Bind("COHERE_Ask", {c, lines, asked} -> COHERE_AskOver(c.text, lines, rec(), asked));

#############################################################################
##
##  Texts, and the program's numbers from 0
##

# The numbers of a line of numbers.
COHERE_Bind("COHERE_Numbers", line -> List(SplitString(line, " "), Int));

# The numbers among the words of a line.
COHERE_Bind("COHERE_NumbersIn", line -> Filtered(List(SplitString(line, " "), Int), IsInt));

# Classes or points as words of a script.
COHERE_Bind("COHERE_Words", numbers -> JoinStringsWithSeparator(List(numbers, k -> String(k - 1)), " "));

# A set of classes as words of a script, once it is known that they are classes.
COHERE_Bind("COHERE_Classes", function(asked, c, set)
  local k;
  if IsInt(set) then set := [set]; fi;
  if not IsList(set) or IsEmpty(set) or not ForAll(set, IsInt) then
    COHERE_Error(asked, ": a set of classes is a class, or a list of them that is not empty");
  fi;
  for k in set do
    if not k in [1 .. c.rank] then
      COHERE_Error(asked, ": there is no class ", k, "; classes are numbered from 1 to the rank, ", c.rank);
    fi;
  od;
  return COHERE_Words(set);
end);

# Points as words of a script, once it is known that they are points.
COHERE_Bind("COHERE_Points", function(asked, c, points)
  local x;
  for x in points do
    if not IsInt(x) or not x in [1 .. c.points] then
      COHERE_Error(asked, ": there is no point ", x, "; points are numbered from 1 to ", c.points);
    fi;
  od;
  return COHERE_Words(points);
end);

# A colour as a word of a script.
COHERE_Bind("COHERE_Colour", function(asked, colour)
  if not IsInt(colour) or colour < 0 or colour > 1048575 then
    COHERE_Error(asked, ": ", colour, " is no colour; colours are 0 to 1048575");
  fi;
  return String(colour);
end);

COHERE_Bind("COHERE_MatrixText", matrix -> JoinStringsWithSeparator(Concatenation(
  [Concatenation("matrix ", String(Length(matrix)))],
  List(matrix, row -> JoinStringsWithSeparator(List(row, String), " ")), [""]), "\n"));

# The rows of a matrix of classes, counted from 1.
COHERE_Bind("COHERE_Rows", lines -> List(lines, line -> COHERE_Numbers(line) + 1));

# The configuration that an answer shows from its line 'at' on, of a relation.
COHERE_Bind("COHERE_Shown", function(answers, at, text)
  local sizes, shown;
  sizes := COHERE_NumbersIn(answers[at]);
  shown := rec(points := sizes[1], rank := sizes[2],
               matrix := COHERE_Rows(answers{[at + 1 .. at + sizes[1]]}), text := text);
  # A configuration is the closure of its own matrix.
  if text = fail then shown.text := COHERE_MatrixText(shown.matrix - 1); fi;
  return shown;
end);

# The number from 0 of the orbit of each pair of points 1 .. n under a group of permutations. The orbits are counted
# as the program counts classes: along the diagonal, and then off it, row by row.
COHERE_Bind("COHERE_OrbitalMatrix", function(group, n)
  local onPairs, orbits, orbitAt, numbers, k, place;
  if n > 256 then COHERE_Error("a group on ", n, " points", COHERE_HintIn(COHERE_OF_RELATION, "TooManyPoints")); fi;
  # (the pair (x,y) is the place (x-1)*n + y)
  onPairs := List(GeneratorsOfGroup(group), function(g)
    local images;
    images := ListPerm(g, n);
    return PermList(Concatenation(List(images, x -> (x - 1) * n + images)));
  end);
  orbits := OrbitsPerms(onPairs, [1 .. n^2]);
  orbitAt := [];
  for k in [1 .. Length(orbits)] do orbitAt{orbits[k]} := ListWithIdenticalEntries(Length(orbits[k]), k); od;
  numbers := [];
  k := 0;
  for place in Concatenation(List([1 .. n], x -> (x - 1) * n + x), [1 .. n^2]) do
    if not IsBound(numbers[orbitAt[place]]) then
      numbers[orbitAt[place]] := k;
      k := k + 1;
    fi;
  od;
  return List([1 .. n], x -> numbers{orbitAt{[(x - 1) * n + 1 .. x * n]}});
end);

# The orbits on pairs of a group of permutations of 1 .. n, where n is the largest point that it moves.
COHERE_Bind("COHERE_OrbitalsOfMoved", function(group)
  if LargestMovedPoint(group) = 0 then
    COHERE_Error("the group moves no point; CohereOrbitals( G, points ) takes the points too");
  fi;
  return COHERE_OrbitalMatrix(group, LargestMovedPoint(group));
end);

# The text of a relation.
COHERE_Bind("COHERE_Text", function(relation)
  if IsString(relation) then return Concatenation(Chomp(relation), "\n"); fi;
  if IsPermGroup(relation) then return COHERE_MatrixText(COHERE_OrbitalsOfMoved(relation)); fi;
  if IsList(relation) then
    if not ForAll(relation, row -> IsList(row) and Length(row) = Length(relation) and ForAll(row, IsInt)) then
      COHERE_Error("a matrix of colours has N rows of N integers, and row ",
        PositionProperty(relation, row -> not IsList(row) or Length(row) <> Length(relation) or not ForAll(row, IsInt)),
        " is none of ", Length(relation));
    fi;
    return COHERE_MatrixText(relation);
  fi;
  if IsRecord(relation) and IsBound(relation.isGraph) then
    # A graph of GRAPE, coloured as the program colours graphs: diagonal, arcs, other pairs, loops.
    return COHERE_MatrixText(List([1 .. relation.order], function(x)
      local near;
      near := ValueGlobal("Adjacency")(relation, x);
      return List([1 .. relation.order], function(y)
        if x = y then return 3 * Number(near, z -> z = y); fi;
        return 2 - Number(near, z -> z = y);
      end);
    end));
  fi;
  if IsRecord(relation) and IsBound(relation.text) then return COHERE_MatrixText(relation.matrix - 1); fi;
  COHERE_Error("a relation is a matrix of colours, a graph of GRAPE, a text in graph6 or digraph6, ",
               "a group of permutations, or a configuration");
end);

# The blocks of a growth string of the program.
COHERE_Bind("COHERE_Blocks", string -> List([0 .. Maximum(string)], b -> Positions(string, b)));

# The growth string of a partition of the classes, as words.
COHERE_Bind("COHERE_Growth", function(asked, c, partition)
  local sorted, k;
  if not IsList(partition) or IsEmpty(partition) or not ForAll(partition, b -> IsList(b) and not IsEmpty(b)
                                                               and ForAll(b, IsInt)) then
    COHERE_Error(asked, ": a partition is a list of its blocks, which are lists of classes that are not empty");
  fi;
  sorted := SortedList(List(partition, SortedList));
  for k in Union([1 .. c.rank], Concatenation(sorted)) do
    if not k in [1 .. c.rank] then
      COHERE_Error(asked, ": there is no class ", k, "; classes are numbered from 1 to the rank, ", c.rank);
    elif Number(Concatenation(sorted), it -> it = k) <> 1 then
      COHERE_Error(asked, ": the blocks are to have each class from 1 to ", c.rank, " once, and not so class ", k);
    fi;
  od;
  return COHERE_Words(List([1 .. c.rank], k -> PositionProperty(sorted, block -> k in block)));
end);

#############################################################################
##
#F  CohereClosure( M )
##
##  is the coherent closure of M: a matrix of colours, a graph of GRAPE, a
##  text in graph6 or digraph6, a group of permutations, or a configuration.
##  (The text of a file is StringFile of its name.)
##
COHERE_Bind("CohereClosure", function(relation)
  local text;
  text := COHERE_Text(relation);
  return COHERE_Shown(COHERE_AskOver(text, ["show"], rec(), "CohereClosure( M )"), 1, text);
end);

#############################################################################
##
#F  CohereOrbitals( G )
#F  CohereOrbitals( G, points[, action] )
##
##  is the configuration whose classes are the orbits of a group on pairs of
##  points, the 2-orbits of G. The group need not be transitive. Its points are
##  1 .. LargestMovedPoint( G ), for a group of permutations, which is also what
##  CohereClosure( G ) takes; or those of a list that G maps to itself, by the
##  action OnPoints or another one, as OnSets. Point x of the configuration is
##  then points[x].
##
COHERE_Bind("CohereOrbitals", function(group, more...)
  local points, action, moved;
  if not IsGroup(group) or more = [] and not IsPermGroup(group) then
    COHERE_Error("CohereOrbitals( G ): this is for a group of permutations; CohereOrbitals( G, points, action ) is ",
                 "for any group that acts on the points");
  fi;
  if more = [] then return CohereClosure(group); fi;
  points := more[1];
  action := OnPoints;
  if Length(more) > 1 then action := more[2]; fi;
  if not IsList(points) or IsEmpty(points) or not IsDuplicateFreeList(points) then
    COHERE_Error("CohereOrbitals( G, points ): the points are a list that is not empty and has none twice");
  fi;
  for moved in GeneratorsOfGroup(group) do
    if Set(points, x -> action(x, moved)) <> Set(points) then
      COHERE_Error("CohereOrbitals( G, points ): ", moved, " does not map the list of points to itself");
    fi;
  od;
  return CohereClosure(COHERE_OrbitalMatrix(Action(group, points, action), Length(points)));
end);

#############################################################################
##
#F  CohereFibres( c ) . . . . . . . the fibres, as lists of points, by class
##
COHERE_Bind("CohereFibres", function(c)
  local diagonal;
  diagonal := List([1 .. c.points], x -> c.matrix[x][x]);
  return List([1 .. Maximum(diagonal)], k -> Positions(diagonal, k));
end);

#############################################################################
##
#F  CohereRaw( c ) . . . . . . . . the matrix of colours that c is the closure of
#F  CohereClassesOf( c, colour ) . . the classes that this colour of it fell into
#F  CohereColourOf( c, k ) . . . . . . . . . . . . . . . the colour of the class k
##
##  Of a graph the edges or arcs have the colour 1, the other pairs off the
##  diagonal 2, the diagonal 0, and loops 3.
##
COHERE_Bind("CohereRaw", function(c)
  local answers;
  answers := COHERE_Ask(c, ["raw"], "CohereRaw( c )");
  return List(answers{[2 .. c.points + 1]}, COHERE_Numbers);
end);

COHERE_Bind("CohereClassesOf", function(c, colour)
  local raw;
  raw := CohereRaw(c);
  return Union(List([1 .. c.points], x -> Set(c.matrix[x]{Positions(raw[x], colour)})));
end);

COHERE_Bind("CohereColourOf", function(c, k)
  local x;
  COHERE_Classes(COHERE_Asked("CohereColourOf", k), c, k);
  x := PositionProperty(c.matrix, row -> k in row);
  return CohereRaw(c)[x][Position(c.matrix[x], k)];
end);

#############################################################################
##
#F  CohereClasses( c )
##
##  is a list with a record for each class: size (how many pairs), valency,
##  transpose (the class of the turned pairs), pair (its first pair), fibres.
##
COHERE_Bind("CohereClasses", function(c)
  local answers;
  answers := COHERE_Ask(c, ["classes"], "CohereClasses( c )");
  return List(answers{[2 .. Length(answers)]}, function(line)
    local n;
    n := COHERE_NumbersIn(line);
    return rec(size := n[2], valency := n[3], transpose := n[4] + 1, pair := n{[5, 6]} + 1, fibres := n{[7, 8]} + 1);
  end);
end);

#############################################################################
##
#F  CohereConstant( c, i, j, k )
#F  CohereConstantsOf( c, k )
#F  CohereConstantsList( c )
#F  CohereConstants( c )
##
##  The structure constant p(i,j,k) is the number of points z with (x,z) in
##  class i and (z,y) in class j, for each pair (x,y) of class k.
##
##  The first is one of them. The second lists those of class k that are not 0,
##  as [i,j,p(i,j,k)]. Both are counted in the matrix. The third lists all that
##  are not 0, as [i,j,k,p(i,j,k)], at most points^3, as the program prints them.
##  The last is the list p with p[i][j][k] = p(i,j,k); it has rank^3 entries, so
##  the rank is at most 200.
##
COHERE_Bind("COHERE_Walks", function(c, k)
  local x, y;
  x := PositionProperty(c.matrix, row -> k in row);
  y := Position(c.matrix[x], k);
  return List([1 .. c.points], z -> [c.matrix[x][z], c.matrix[z][y]]);
end);

COHERE_Bind("CohereConstant", function(c, i, j, k)
  COHERE_Classes(COHERE_Asked("CohereConstant", i, j, k), c, [i, j, k]);
  return Number(COHERE_Walks(c, k), walk -> walk = [i, j]);
end);

COHERE_Bind("CohereConstantsOf", function(c, k)
  COHERE_Classes(COHERE_Asked("CohereConstantsOf", k), c, k);
  return List(Collected(COHERE_Walks(c, k)), counted -> [counted[1][1], counted[1][2], counted[2]]);
end);

COHERE_Bind("CohereConstantsList", function(c)
  local answers;
  answers := COHERE_Ask(c, ["constants"], "CohereConstantsList( c )");
  return List(answers{[2 .. Length(answers)]}, line -> COHERE_Numbers(line) + [1, 1, 1, 0]);
end);

COHERE_Bind("COHERE_MOST_RANK", 200);

COHERE_Bind("CohereConstants", function(c)
  local p, entry;
  if c.rank > COHERE_MOST_RANK then
    COHERE_Error("CohereConstants( c ): the rank is ", c.rank, ", and rank^3 entries are made for at most ",
                 COHERE_MOST_RANK, "; CohereConstantsList( c ) has those that are not 0, ",
                 "CohereConstantsOf( c, k ) those of one class, CohereConstant( c, i, j, k ) one");
  fi;
  p := List([1 .. c.rank], i -> List([1 .. c.rank], j -> ListWithIdenticalEntries(c.rank, 0)));
  for entry in CohereConstantsList(c) do p[entry[1]][entry[2]][entry[3]] := entry[4]; od;
  return p;
end);

#############################################################################
##
#F  CohereTests( c )
##
##  is a record of true and false: homogeneous, symmetric, commutative, thin,
##  primitive.
##
COHERE_Bind("CohereTests", function(c)
  local words;
  words := SplitString(COHERE_Ask(c, ["tests"], "CohereTests( c )")[1], " ");
  return rec(homogeneous := words[3] = "yes", symmetric := words[5] = "yes", commutative := words[7] = "yes",
             thin := words[9] = "yes", primitive := words[11] = "yes");
end);

#############################################################################
##
#F  CohereArray( c, S )
##
##  is the intersection array of the graph of the classes S, as
##  rec( b := [b_0,..], c := [c_1,..] ); or rec( disconnected := [x,y] ), two
##  points with no walk between them; or rec( irregular := [[x,y],[u,v]] ), two
##  pairs that show that the graph is not distance-regular.
##
COHERE_Bind("CohereArray", function(c, set)
  local asked, line, n, halves;
  asked := COHERE_Asked("CohereArray", set);
  line := COHERE_Ask(c, [Concatenation("array ", COHERE_Classes(asked, c, set))], asked)[1];
  n := COHERE_NumbersIn(line) + 1;
  if StartsWith(line, "array disconnected") then return rec(disconnected := n); fi;
  if StartsWith(line, "array irregular") then return rec(irregular := [n{[1, 2]}, n{[3, 4]}]); fi;
  halves := List(SplitString(line{[8 .. Length(line) - 1]}, ";"), half -> List(SplitString(half, ","), Int));
  return rec(b := halves[1], c := halves[2]);
end);

# The sets that a question without arguments lists.
COHERE_Bind("COHERE_Sets", function(c, word, name)
  local answers;
  answers := COHERE_Ask(c, [word], Concatenation(name, "( c )"));
  return COHERE_Rows(answers{[2 .. Length(answers) - 1]});
end);

#############################################################################
##
#F  CohereClosedSubsets( c ) . . . . . . sets of classes that are equivalences
#F  CohereGoodSubsets( c ) . . . . . . . sets of classes that a fusion can have
##
##  The rank is at most 16 for both.
##
COHERE_Bind("CohereClosedSubsets", c -> COHERE_Sets(c, "closed", "CohereClosedSubsets"));
COHERE_Bind("CohereGoodSubsets", c -> COHERE_Sets(c, "good", "CohereGoodSubsets"));

#############################################################################
##
#F  CohereGenerated( c, S ) . . . . the closed subset that the classes S generate
##
##  It is the least closed subset that has them all, told from the matrix, at any
##  rank. Where there is one fibre, CohereQuotient by it has the program confirm
##  that it is closed.
##
COHERE_Bind("CohereGenerated", function(c, set)
  local blockOf, first, block, x, y;
  COHERE_Classes(COHERE_Asked("CohereGenerated", set), c, set);
  if IsInt(set) then set := [set]; fi;
  set := Set(set);
  blockOf := [];
  for first in [1 .. c.points] do
    if not IsBound(blockOf[first]) then
      blockOf[first] := first;
      block := [first];
      for x in block do
        for y in [1 .. c.points] do
          if not IsBound(blockOf[y]) and (c.matrix[x][y] in set or c.matrix[y][x] in set) then
            blockOf[y] := first;
            Add(block, y);
          fi;
        od;
      od;
    fi;
  od;
  return Union(List([1 .. c.points], x -> Set(c.matrix[x]{Positions(blockOf, blockOf[x])})));
end);

#############################################################################
##
#F  CohereFusions( c )
##
##  lists all fusions, each as the list of its blocks of classes. The rank is
##  at most 16.
##
COHERE_Bind("CohereFusions", function(c)
  local fusions, after, answers;
  fusions := [];
  after := "";
  repeat
    answers := COHERE_Ask(c, [Concatenation("mergings 10000", after)], "CohereFusions( c )");
    Append(fusions, List(answers{[2 .. Length(answers) - 1]}, line -> COHERE_Blocks(COHERE_Numbers(line))));
    after := ReplacedString(Last(answers), "next after", " after");
  until after = "end";
  return fusions;
end);

#############################################################################
##
##  Edits of a session, which CohereSession below makes
##

# Takes the components of the present state.
COHERE_Bind("COHERE_Renew", function(s)
  local state, name;
  state := s.states[s.at];
  for name in ["points", "rank", "matrix", "text"] do s.(name) := state.(name); od;
  s.edits := List(s.states{[2 .. s.at]}, it -> it.edit);
  return rec(points := s.points, rank := s.rank);
end);

COHERE_Bind("COHERE_Session", function(asked, s)
  if not IsRecord(s) or not IsBound(s.states) then
    COHERE_Error(asked, ": this is for a session, as CohereSession( M ) gives it");
  fi;
end);

# Carries out an edit: the state after it has the colouring itself as its relation.
COHERE_Bind("COHERE_Edit", function(s, line, files, asked)
  local answers, points, state;
  COHERE_Session(asked, s);
  answers := COHERE_AskOver(s.text, [line, "raw", "show"], files, asked);
  points := COHERE_NumbersIn(answers[2])[1];
  state := COHERE_Shown(answers, points + 3, JoinStringsWithSeparator(Concatenation(
    [Concatenation("matrix ", String(points))], answers{[3 .. points + 2]}, [""]), "\n"));
  state.edit := line;
  state.files := files;
  s.states := Concatenation(s.states{[1 .. s.at]}, [state]);
  s.at := s.at + 1;
  return COHERE_Renew(s);
end);

#############################################################################
##
#F  CohereFuse( c, P ) . . . . . . .  the closure after the classes were merged
#F  CohereClose( c, P )  . . . .  the coarsest fusion that refines the partition
##
##  P is a partition of the classes 1 .. rank, as a list of its blocks. Of a
##  session the first is an edit.
##
COHERE_Bind("CohereFuse", function(c, partition)
  local asked, line;
  asked := COHERE_Asked("CohereFuse", partition);
  line := Concatenation("fuse ", COHERE_Growth(asked, c, partition));
  if IsBound(c.states) then return COHERE_Edit(c, line, rec(), asked); fi;
  return COHERE_Shown(COHERE_Ask(c, [line, "show"], asked), 2, fail);
end);

COHERE_Bind("CohereClose", function(c, partition)
  local asked, line;
  asked := COHERE_Asked("CohereClose", partition);
  line := COHERE_Ask(c, [Concatenation("close ", COHERE_Growth(asked, c, partition))], asked)[1];
  return COHERE_Blocks(COHERE_NumbersIn(line));
end);

#############################################################################
##
#F  CohereQuotient( c, S ) . . . . . . . . the quotient by a closed subset
#F  CohereSubscheme( c, x, S ) . . . . . . the subscheme on the class of x
##
COHERE_Bind("CohereQuotient", function(c, set)
  local asked;
  asked := COHERE_Asked("CohereQuotient", set);
  return COHERE_Shown(COHERE_Ask(c, [Concatenation("quotient ", COHERE_Classes(asked, c, set))], asked), 1, fail);
end);

COHERE_Bind("CohereSubscheme", function(c, x, set)
  local asked, line;
  asked := COHERE_Asked("CohereSubscheme", x, set);
  line := Concatenation("sub ", COHERE_Points(asked, c, [x]), " ", COHERE_Classes(asked, c, set));
  return COHERE_Shown(COHERE_Ask(c, [line], asked), 1, fail);
end);

# The product that the word names. The relation is a file in the folder that the program runs in.
COHERE_Bind("COHERE_Product", function(word, name, c, relation)
  local asked, files, line;
  asked := Concatenation(name, "( c, M )");
  files := rec(product := COHERE_Text(relation));
  line := Concatenation(word, " product");
  if IsBound(c.states) then return COHERE_Edit(c, line, files, asked); fi;
  return COHERE_Shown(COHERE_AskOver(c.text, [line, "show"], files, asked), 2, fail);
end);

#############################################################################
##
#F  CohereDirectProduct( c, M )
#F  CohereWreathProduct( c, M )
##
##  The second factor is the closure of M, on m points. The point (x,u) has
##  the number (x-1)*m + u. Of a session they are edits.
##
COHERE_Bind("CohereDirectProduct", {c, relation} -> COHERE_Product("direct", "CohereDirectProduct", c, relation));
COHERE_Bind("CohereWreathProduct", {c, relation} -> COHERE_Product("wreath", "CohereWreathProduct", c, relation));

#############################################################################
##
#F  CohereGraph6( c, S ) . . . . . . . . . the graph of these classes, in graph6
#F  CohereDigraph6( c, S ) . . . . . . . the digraph of these classes, in digraph6
#F  CohereGraph( c, S ) . . . . . . . . . . . the graph of classes, for GRAPE
##
COHERE_Bind("COHERE_Written", function(form, name, c, set)
  local asked, line;
  asked := COHERE_Asked(name, set);
  line := COHERE_Ask(c, [Concatenation("write ", form, " ", COHERE_Classes(asked, c, set))], asked)[1];
  return line{[Length(form) + 2 .. Length(line)]};
end);

COHERE_Bind("CohereGraph6", {c, set} -> COHERE_Written("graph6", "CohereGraph6", c, set));
COHERE_Bind("CohereDigraph6", {c, set} -> COHERE_Written("digraph6", "CohereDigraph6", c, set));

COHERE_Bind("CohereGraph", function(c, set)
  local asked;
  asked := COHERE_Asked("CohereGraph", set);
  COHERE_Classes(asked, c, set);
  if IsInt(set) then set := [set]; fi;
  if not IsBoundGlobal("AutGroupGraph") and LoadPackage("grape", false) <> true then
    COHERE_Error(asked, ": this needs the package GRAPE, which is not installed; CohereGraph6 needs none");
  fi;
  return ValueGlobal("Graph")(Group(()), [1 .. c.points], function(x, g) return x; end,
    function(x, y) return c.matrix[x][y] in set; end, true);
end);

#############################################################################
##
#F  CohereSession( M ) . . . . . . . . . . . . . a configuration that edits change
#F  CohereSet( s, x, y, colour ) . . . . . . . . . . the pair (x,y) gets the colour
#F  CohereBoth( s, x, y, colour )  . . . . . . . so do the pairs (x,y) and (y,x)
#F  CohereFix( s, x )  . . . . . . . . . the pair (x,x) gets a colour of its own
#F  CohereJoin( s, kept, gone )  . . . . . . two colours become one
#F  CohereAdopt( s ) . . . . . . . . . . . . . . . the closure becomes the colouring
#F  CohereUndo( s )
#F  CohereRedo( s )
##
##  A session has the components of a configuration, which each edit renews, so
##  it can stand wherever a configuration can; CohereClosure( s ) is one that
##  does not change. Each edit, undo and redo gives rec( points, rank ). CohereFuse,
##  CohereDirectProduct and CohereWreathProduct are edits of a session, too.
##  CohereRaw( s ) has its colours, which are numbered from 0 as they were given.
##
##  s.edits lists the edits in the words of the program, with its numbers.
##
COHERE_Bind("CohereSession", function(relation)
  local s;
  s := rec(states := [CohereClosure(relation)], at := 1);
  COHERE_Renew(s);
  return s;
end);

COHERE_Bind("CohereSet", function(s, x, y, colour)
  local asked, line;
  asked := ReplacedString(COHERE_Asked("CohereSet", x, y, colour), "( c,", "( s,");
  COHERE_Session(asked, s);
  line := Concatenation("set ", COHERE_Points(asked, s, [x, y]), " ", COHERE_Colour(asked, colour));
  return COHERE_Edit(s, line, rec(), asked);
end);

COHERE_Bind("CohereBoth", function(s, x, y, colour)
  local asked, line;
  asked := ReplacedString(COHERE_Asked("CohereBoth", x, y, colour), "( c,", "( s,");
  COHERE_Session(asked, s);
  line := Concatenation("both ", COHERE_Points(asked, s, [x, y]), " ", COHERE_Colour(asked, colour));
  return COHERE_Edit(s, line, rec(), asked);
end);

COHERE_Bind("CohereFix", function(s, x)
  local asked;
  asked := ReplacedString(COHERE_Asked("CohereFix", x), "( c,", "( s,");
  COHERE_Session(asked, s);
  return COHERE_Edit(s, Concatenation("fix ", COHERE_Points(asked, s, [x])), rec(), asked);
end);

COHERE_Bind("CohereJoin", function(s, kept, gone)
  local asked, line;
  asked := ReplacedString(COHERE_Asked("CohereJoin", kept, gone), "( c,", "( s,");
  COHERE_Session(asked, s);
  line := Concatenation("join ", COHERE_Colour(asked, kept), " ", COHERE_Colour(asked, gone));
  return COHERE_Edit(s, line, rec(), asked);
end);

COHERE_Bind("CohereAdopt", s -> COHERE_Edit(s, "adopt", rec(), "CohereAdopt( s )"));

COHERE_Bind("COHERE_Move", function(s, by, asked, word)
  COHERE_Session(asked, s);
  if not s.at + by in [1 .. Length(s.states)] then
    COHERE_Error(asked, ": refused ", word, COHERE_HintIn(COHERE_OF_REFUSAL, word));
  fi;
  s.at := s.at + by;
  return COHERE_Renew(s);
end);

COHERE_Bind("CohereUndo", s -> COHERE_Move(s, -1, "CohereUndo( s )", "NothingToUndo"));
COHERE_Bind("CohereRedo", s -> COHERE_Move(s, 1, "CohereRedo( s )", "NothingToRedo"));

#############################################################################
##
#F  CohereTrace( c[, version] ) .  a certificate that c is the closure of its relation
#F  CohereCheck( trace ) . . . . . . . . . . . . . . . . . what the checker says
##
##  The version is 1, with steps on one class each, or 2, with rounds that split
##  all classes at once. Of a session the trace has a stage for each edit that
##  only refined.
##
##  The verdict is rec( accepted := true, points, rank, steps ) or
##  rec( accepted := false, line, word ). Numbers in a trace are the program's.
##
# Tells whether pairs of one colour of a state have one colour in another.
COHERE_Bind("COHERE_Refines", function(fine, coarse)
  local words;
  if fine.points <> coarse.points then return false; fi;
  words := List([fine, coarse], state -> SplitString(state.text, "", " \n"));
  return Length(Set(TransposedMat(words))) = Length(Set(words[1]));
end);

# A state whose text is the matrix of its colours.
COHERE_Bind("COHERE_AsMatrix", state -> rec(points := state.points, text := COHERE_MatrixText(CohereRaw(state))));

COHERE_Bind("CohereTrace", function(c, more...)
  local lines, start, files, at, line, text;
  lines := [];
  files := rec();
  text := c.text;
  if IsBound(c.states) then
    start := c.at;
    # (the relation that a session begins with is a graph perhaps, so its colouring is told by the program)
    while start > 2 and COHERE_Refines(c.states[start], c.states[start - 1]) do start := start - 1; od;
    if start = 2 and COHERE_Refines(c.states[2], COHERE_AsMatrix(c.states[1])) then start := 1; fi;
    text := c.states[start].text;
    for at in [start + 1 .. c.at] do
      line := c.states[at].edit;
      if IsBound(c.states[at].files.product) then
        files.(Concatenation("product-", String(at))) := c.states[at].files.product;
        line := Concatenation(line, "-", String(at));
      fi;
      Add(lines, line);
    od;
  fi;
  Add(lines, "trace");
  if more <> [] and more[1] <> 1 then lines[Length(lines)] := Concatenation("trace ", String(more[1])); fi;
  if Length(lines) > 257 then
    COHERE_Error("CohereTrace( s ): more edits in a row only refined than one script holds; ",
                 "CohereTrace( CohereClosure( CohereRaw( s ) ) ) has one stage");
  fi;
  lines := COHERE_AskOver(text, lines, files, "CohereTrace( c )");
  start := PositionProperty(lines, it -> StartsWith(it, "trace "));
  return JoinStringsWithSeparator(Concatenation(lines{[start .. Length(lines)]}, [""]), "\n");
end);

# What a checker says of a trace; 'hints' are those of its format, and 'counted' is what it counts beside the steps.
COHERE_Bind("COHERE_Judged", function(word, trace, asked, hints, counted)
  local ended, n, verdict;
  ended := COHERE_Run([word, "-"], trace, rec());
  if not ended.status in [0, 1] then COHERE_Fail(ended, asked, rec(hints := hints)); fi;
  n := COHERE_NumbersIn(Chomp(ended.out));
  if not StartsWith(ended.out, "accepted ") then
    return rec(accepted := false, line := n[1], word := Last(SplitString(Chomp(ended.out), " ")));
  fi;
  verdict := rec(accepted := true, points := n[1], steps := n[3]);
  verdict.(counted) := n[2];
  return verdict;
end);

COHERE_Bind("CohereCheck",
  trace -> COHERE_Judged("check", trace, "CohereCheck( trace )", COHERE_OF_TRACE, "rank"));

#############################################################################
##
##  Questions beside scripts
##

# Answers such a question: the lines that the program prints, each without its end. 'called' is what the user calls the
# text that is handed over.
COHERE_Bind("COHERE_Question", function(words, text, asked, called)
  local ended;
  ended := COHERE_Run(words, text, rec());
  if ended.status <> 0 then COHERE_Fail(ended, asked, rec(("-") := text, ("called -") := called)); fi;
  return SplitString(Chomp(ended.out), "\n");
end);

# The same where a refusal is an error.
COHERE_Bind("COHERE_Answered", function(words, text, asked, called)
  local lines;
  lines := COHERE_Question(words, text, asked, called);
  if StartsWith(lines[1], "refused ") then
    COHERE_Error(asked, ": ", lines[1], COHERE_HintIn(COHERE_OF_QUESTION, SplitString(lines[1], " ")[2]));
  fi;
  return lines;
end);

#############################################################################
##
#F  CohereRing( G, sets )
##
##  is the Schur ring over a finite group that sets of its elements generate, as
##  the list of its basic sets: the coarsest one in which each of the sets is a
##  union of basic sets. Here 'sets' is one set of elements or a list of them,
##  which may overlap.
##
##  G is a group, or a table of products as MultiplicationTable gives it, with
##  the product of x and y at [x][y] and the unit 1; then elements are numbers.
##
##  All Schur rings over G are the fusions of its thin scheme, which is
##  CohereOrbitals( G, AsList( G ), OnRight ).
##
COHERE_Bind("CohereRing", function(group, sets)
  local elements, table, patterns, colours, words, lines;
  if IsGroup(group) then
    if Size(group) > 256 then
      COHERE_Error("CohereRing( G, sets ): a group of order ", Size(group), "; it is to have at most 256 elements");
    fi;
    elements := Concatenation([One(group)], Filtered(AsSSortedList(group), it -> it <> One(group)));
    table := MultiplicationTable(elements);
  else
    table := group;
    elements := [1 .. Length(table)];
  fi;
  if IsList(sets) and ForAll(sets, it -> it in elements) then sets := [sets]; fi;
  if not IsList(sets) or not ForAll(sets, set -> IsList(set) and IsSubset(elements, set)) then
    COHERE_Error("CohereRing( G, sets ): a set is a list of elements of the group, or of numbers of its table");
  fi;
  patterns := List(elements, it -> List(sets, set -> it in set));
  colours := List(patterns, it -> Position(Set(patterns), it));
  words := Concatenation(["ring", "-"], List(colours, String));
  lines := COHERE_Answered(words, COHERE_Text(table - 1), "CohereRing( G, sets )", "table");
  return List(COHERE_Blocks(COHERE_Numbers(lines[2])), block -> elements{block});
end);

#############################################################################
##
#F  CohereCells( M, colours ) . . . . . . . . the coarsest equitable partition
#F  CohereCellsTrace( M, colours )  . . . . . . . . . . . . . a certificate of it
#F  CohereCheckCells( trace ) . . . . . . . . . . . . . . what the checker says
##
##  The arcs are the pairs whose colour in the relation M is 'colours', or one of
##  them: 1 for the edges of a graph. Of a configuration the colours are its
##  classes. From the points of one cell equally many arcs lead into each cell.
##  The cells are lists of points, in the order of their least points.
##
##  The verdict is rec( accepted := true, points, cells, steps ) or
##  rec( accepted := false, line, word ). Numbers in a trace are the program's.
##
COHERE_Bind("COHERE_AskCells", function(name, relation, colours)
  local asked;
  asked := Concatenation(name, "( M, ", String(colours), " )");
  if IsRecord(relation) and IsBound(relation.matrix) then
    COHERE_Classes(asked, relation, colours);
    colours := colours - 1;
  fi;
  if IsInt(colours) then colours := [colours]; fi;
  if not IsList(colours) or IsEmpty(colours) then
    COHERE_Error(asked, ": colours are a list that is not empty");
  fi;
  colours := List(colours, it -> COHERE_Colour(asked, it));
  return COHERE_Answered(Concatenation(["cells", "-"], colours), COHERE_Text(relation), asked, "relation");
end);

COHERE_Bind("CohereCells", function(relation, colours)
  local lines;
  lines := COHERE_AskCells("CohereCells", relation, colours);
  return COHERE_Blocks(COHERE_Numbers(lines[Length(lines) - 1]));
end);

COHERE_Bind("CohereCellsTrace", {relation, colours} -> JoinStringsWithSeparator(
  Concatenation(COHERE_AskCells("CohereCellsTrace", relation, colours), [""]), "\n"));

COHERE_Bind("CohereCheckCells",
  trace -> COHERE_Judged("check-cells", trace, "CohereCheckCells( trace )", COHERE_OF_CELL_TRACE, "cells"));

#############################################################################
##
#F  CohereTable( array )
##
##  is what an intersection array rec( b := [b_0,..], c := [c_1,..] ), as
##  CohereArray gives it, determines of every distance-regular graph that has it:
##  rec( points, valencies, p ), where p[i][j][k] is the structure constant and
##  class i has the pairs at distance i - 1. That there is such a graph it does
##  not say.
##
##  Where no graph on at most 256 points has the array it is rec( refused, at,
##  hint ): the word of the first test that it fails, the distances at which, and
##  what it means.
##
COHERE_Bind("CohereTable", function(array)
  local entries, lines, words, found, entry, line;
  entries := Concatenation(array.b, array.c);
  if Length(array.b) <> Length(array.c) or not Length(array.b) in [1 .. 32]
     or not ForAll(entries, it -> it in [1 .. 255]) then
    COHERE_Error("CohereTable( array ): an array has as many b as c, 1 to 32 of each, from 1 to 255");
  fi;
  words := Concatenation(["table"], List(Concatenation([Length(array.b)], entries), String));
  lines := COHERE_Question(words, "", "CohereTable( array )", "array");
  if StartsWith(lines[1], "refused ") then
    found := SplitString(lines[1], " ")[2];
    return rec(refused := found, at := COHERE_NumbersIn(lines[1]), hint := COHERE_OF_QUESTION.(found));
  fi;
  found := rec(points := COHERE_NumbersIn(lines[1])[1]);
  found.p := List([0 .. Length(array.b)], i -> NullMat(Length(array.b) + 1, Length(array.b) + 1));
  for line in lines{[2 .. Length(lines)]} do
    entry := COHERE_Numbers(line) + [1, 1, 1, 0];
    found.p[entry[1]][entry[2]][entry[3]] := entry[4];
  od;
  found.valencies := List([1 .. Length(found.p)], i -> found.p[i][i][1]);
  return found;
end);

#############################################################################
##
#F  CohereLattice( c ) . . . . . . . . . . . . . . the lattice of all fusions
#F  CohereMeet( c, i, j )  . . . the coarsest fusion that is finer than i and j
##
##  The first is rec( fusions, covers ): the fusions as CohereFusions lists them,
##  and the pairs [i,j] where fusion i is finer than fusion j, with none between.
##  The rank is at most 16, and there are at most 300 fusions.
##
COHERE_Bind("CohereLattice", function(c)
  local lines, sizes, numbers;
  lines := COHERE_Answered(["lattice", "-"], c.text, "CohereLattice( c )", "relation");
  sizes := COHERE_NumbersIn(lines[1]);
  numbers := List(lines{[2 .. Length(lines) - 1]}, COHERE_Numbers);
  return rec(fusions := List(numbers{[1 .. sizes[1]]}, COHERE_Blocks),
             covers := numbers{[sizes[1] + 1 .. sizes[1] + sizes[2]]} + 1);
end);

COHERE_Bind("CohereMeet", function(c, i, j)
  local asked, words;
  asked := COHERE_Asked("CohereMeet", i, j);
  if not ForAll([i, j], IsPosInt) then COHERE_Error(asked, ": fusions are numbered from 1"); fi;
  words := ["lattice", "-", String(i - 1), String(j - 1)];
  return COHERE_NumbersIn(COHERE_Answered(words, c.text, asked, "relation")[1])[3] + 1;
end);
