#############################################################################
##
##  hints.g    what the words of the program 'cohere' most often come of
##
##  cohere.g reads this file. A hint is a guess; the word is the answer. Points
##  and classes are numbered from 1 here.
##

# What was said with the last error.
COHERE_Bind("COHERE_LAST", rec(said := ""));

COHERE_Bind("COHERE_Error", function(arg)
  COHERE_LAST.said := Concatenation(List(arg, String));
  Error(COHERE_LAST.said);
end);

# Of a relation that is bad.
COHERE_Bind("COHERE_OF_RELATION", rec(
  BadByte := "this is no character of the format: graph6 and digraph6 have '?' to '~'",
  WrongLength := "the line is longer or shorter than its first characters say: it was cut, or it is no graph6",
  NoPoints := "a relation has at least one point",
  TooManyPoints := "a relation has at most 256 points",
  SizeForm := "up to 62 points the size is one character; write the graph with another program",
  PadBits := "the last character is none that graph6 has there: the line was changed, or it is no graph6",
  NoLine := "the text is empty",
  MatrixHead := "the first line is 'matrix N' with one space, where N is the number of rows",
  MatrixCount := "each of the N rows has N numbers",
  MatrixNumber := "a number has no leading zero",
  ColourTooLarge := "colours are 0 to 1048575; number those that there are from 0",
  TooLong := "a relation has at most 4194304 bytes"));

# Of a script that is bad.
COHERE_Bind("COHERE_OF_SCRIPT", rec(
  TooManyLines := "a script has at most 10000 lines",
  BadByte := "a byte that is no plain character",
  UnknownWord := "no line of a script begins so; is the program older than this file?",
  WrongCount := "a line with this word has more words after it, or fewer",
  BadNumber := "a number has digits alone: no sign, and at most 4294967295",
  BadLimit := "mergings takes 1 to 10000",
  BadName := "'-' is no file here",
  TooManyProducts := "a script has at most 64 products",
  TooLong := "a script has at most 1048576 bytes"));

# Of a question that is refused.
COHERE_Bind("COHERE_OF_REFUSAL", rec(
  PointRange := "there is no such point; points are numbered from 1 here",
  ColourRange := "colours are 0 to 1048575",
  ColourAbsent := "no pair has this colour; CohereRaw tells the colours, which are not the classes",
  HistoryFull := "a history has 257 entries",
  TooManyPoints := "a product has at most 256 points",
  NotHomogeneous := "this is for configurations with one fibre, and CohereFibres tells more",
  NotGrowth := "the blocks have each class from 1 to the rank once",
  NothingToUndo := "no edit is left to undo",
  NothingToRedo := "nothing was undone, or an edit came after that",
  RankAbove := "this is for at most 16 classes: merge some first (CohereFuse)",
  NotClosed := "the pairs of these classes are no equivalence relation; CohereClosedSubsets lists the sets that are",
  BadSet := "edges of a graph are classes off the diagonal, each with its transpose, which CohereClasses tells"));

# Of a trace that is none, or is refused.
COHERE_Bind("COHERE_OF_TRACE", rec(
  Head := "a trace begins with 'trace 1' or 'trace 2'",
  Points := "the second line is 'points N'",
  Stage := "the third line is 'stage'",
  Row := "a row of N numbers is due here: the trace was cut, or a line of it was changed",
  Body := "a step, 'stage' or 'closure' is due here: the trace was cut, or a line of it was changed",
  End := "'end' is due here: the trace was cut",
  Extra := "nothing is due after 'end'",
  TooLong := "a trace has at most 268435456 bytes",
  StageNotRefining := "a stage after the first only parts colours of the one before",
  NoSuchClass := "a step names a class that there is not yet",
  IdleStep := "a step splits its class, or it is left out",
  NotCoherent := "the steps end too early: the last partition is not coherent",
  WrongClosure := "the claimed matrix is not this partition, with its classes numbered as they are first met"));

# Of a question beside scripts that is refused: CohereRing, CohereCells, CohereTable, CohereLattice and CohereMeet. The
# numbers behind the words of CohereTable are distances, from 0.
COHERE_Bind("COHERE_OF_QUESTION", rec(
  NotGroup := "this is no table of products with the unit 1, as MultiplicationTable gives one",
  ColourCount := "there is a colour for each element",
  ColourRange := "colours are 0 to 1048575",
  BadSet := "the arcs have colours of pairs of the relation as it is read: 1 for the edges of a graph",
  RankAbove := "this is for at most 16 classes: merge some first (CohereFuse)",
  TooManyFusions := "a lattice has at most 300 fusions; CohereFusions lists more of them",
  PlaceRange := "there is no such fusion; they are numbered from 1, and CohereLattice lists them",
  FirstC := "the first number after the b is c_1, and that is 1",
  Parts := "b_i and c_i are together more than b_0",
  Valency := "no graph has this array: how many points are at distance i would be no whole number",
  TooManyPoints := "a table has at most 256 points",
  Negative := "no graph has this array: an intersection number would be below 0",
  Division := "no graph has this array: an intersection number would be no whole number"));

# Of a trace of cells that is none, or is refused.
COHERE_Bind("COHERE_OF_CELL_TRACE", rec(
  Head := "a trace of cells begins with 'cells 1'",
  Points := "the second line is 'points N'",
  Row := "a row of N numbers is due here: 0 and 1 for arcs, and after the line 'cells' the cell of each point",
  Body := "a step 'S C Z' or the line 'cells' is due here: the trace was cut, or a line of it was changed",
  End := "'end' is due here: the trace was cut",
  Extra := "nothing is due after 'end'",
  TooLong := "a trace of cells has at most 1048576 bytes",
  NoSuchCell := "a step names a cell that there is not yet",
  IdleStep := "a step parts its cell, or it is left out",
  NotEquitable := "the steps end too early: the last partition is not equitable",
  WrongCells := "the claimed cells are not this partition, numbered as they are first met from point 0 on"));

# The hint of a word, with what is put before it.
COHERE_Bind("COHERE_HintIn", function(hints, word)
  if not IsBound(hints.(word)) then return ""; fi;
  return Concatenation(": ", hints.(word));
end);

# Tells whether a text of one line looks like the name of a file; graph6 has neither '/' nor '.'.
COHERE_Bind("COHERE_IsFileName", function(text)
  return text <> "" and not '\n' in text and not StartsWith(text, "matrix ")
    and ('/' in text or '.' in text or IsExistingFile(text));
end);

# The number of points that a line in graph6 or digraph6 tells, or fail.
COHERE_Bind("COHERE_PointsOf", function(line)
  local codes;
  codes := List(ReplacedString(line, "&", ""), letter -> IntChar(letter) - 63);
  if Length(codes) >= 8 and codes{[1, 2]} = [63, 63] then return codes{[3 .. 8]} * [64^5, 64^4, 64^3, 64^2, 64, 1]; fi;
  if Length(codes) >= 4 and codes[1] = 63 then return codes{[2 .. 4]} * [64^2, 64, 1]; fi;
  return fail;
end);

# What the text of a bad relation most likely is.
COHERE_Bind("COHERE_RelationHint", function(text, word)
  local front, points;
  front := Chomp(text);
  if StartsWith(front, "\357\273\277") then
    return ": the text begins with a byte order mark, which some editors write: save it without";
  elif front <> "" and (front[1] in ":;" or StartsWith(front, ">>sparse6<<")) then
    return ": this is sparse6: nauty's 'copyg -g' writes it as graph6";
  elif COHERE_IsFileName(front) then
    return Concatenation(": this looks like the name of a file, and a text is read as a graph: hand over StringFile(\"",
                         front, "\")");
  elif front <> "" and front[1] = '[' then
    return ": this is the text of a list: hand over the list itself, as EvalString gives it";
  elif front <> "" and front[1] in "0123456789-" then
    return ": these are numbers: hand the rows over as lists, or write a line 'matrix N' before them and blanks between";
  elif word = "TooManyPoints" then
    points := COHERE_PointsOf(SplitString(front, "\n")[1]);
    if points <> fail then return Concatenation(": a graph of ", String(points), " points, and at most 256 are read"); fi;
  fi;
  return COHERE_HintIn(COHERE_OF_RELATION, word);
end);

# The row of a matrix, from 1, in which the byte at a place from 0 is: a text to be put behind it.
COHERE_Bind("COHERE_RowOf", function(text, place)
  local row;
  if not StartsWith(text, "matrix ") then return ""; fi;
  row := Number(text{[1 .. Minimum(place, Length(text))]}, letter -> letter = '\n');
  if row = 0 then return ""; fi;
  return Concatenation(" (row ", String(row), ")");
end);
