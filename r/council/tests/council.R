# The package against worked values. The program is the one on the PATH, or COUNCIL_PROGRAM.
library(council)

if (!nzchar(Sys.getenv("COUNCIL_PROGRAM")) && !nzchar(Sys.which("council"))) {
  cat("skipped: the program council was not found\n")
  quit(status = 0)
}

board <- council(51, c(50, 49, 1), names = c("A", "B", "C"))
stopifnot(
  identical(names(board), c("name", "weight", "coalitions", "deegan_packel", "public_good", "deegan_packel_exact", "public_good_exact")),
  identical(board$name, c("A", "B", "C")),
  identical(board$weight, c(50, 49, 1)),
  identical(board$coalitions, c(2, 1, 1)),
  identical(board$deegan_packel_exact, c("1/2", "1/4", "1/4")),
  identical(board$public_good, c(0.5, 0.25, 0.25)),
  identical(attributes(board)[c("title", "quota", "total", "minimal")], list(title = "", quota = 51, total = 100, minimal = 2)),
  is.null(attr(board, "coalitions"))
)

# the two indices differ
parties <- council(51, c(35, 20, 15, 15, 15), title = "T")
stopifnot(
  identical(parties$deegan_packel_exact, c("3/10", "3/20", rep("11/60", 3))), identical(parties$deegan_packel, c(3 / 10, 3 / 20, rep(11 / 60, 3))),
  identical(parties$public_good_exact, c("4/15", "2/15", rep("1/5", 3))), identical(parties$public_good, c(4 / 15, 2 / 15, rep(1 / 5, 3))),
  identical(attr(parties, "title"), "T")
)

# swings, with the minimal winning coalitions and without
swung <- c("banzhaf", "penrose", "shapley_shubik", "power_to_prevent", "power_to_initiate")
six <- council(12, c(4, 4, 4, 2, 2, 1), swings = TRUE)
only <- council(12, c(4, 4, 4, 2, 2, 1), only_swings = TRUE)
stopifnot(
  identical(names(only), c("name", "weight", "swings", swung, paste0(swung, "_exact"))),
  identical(names(six), c(names(board), names(only)[-(1:2)])), identical(as.list(six)[8:18], as.list(only)[3:13]),
  identical(as.list(six)[3:7], as.list(council(12, c(4, 4, 4, 2, 2, 1)))[3:7]),
  identical(only$swings, c(10, 10, 10, 6, 6, 0)), identical(only$banzhaf_exact, c(rep("5/21", 3), "1/7", "1/7", "0/1")),
  identical(only$penrose, c(rep(5 / 16, 3), 3 / 16, 3 / 16, 0)), identical(only$shapley_shubik_exact, c(rep("7/30", 3), "3/20", "3/20", "0/1")),
  identical(attr(six, "minimal"), 4), identical(attr(six, "winning"), 14), is.null(attr(only, "minimal")), identical(attr(only, "winning"), 14),
  identical(only$power_to_prevent_exact, c(rep("5/7", 3), "3/7", "3/7", "0/1")), identical(only$power_to_initiate, c(rep(1 / 5, 3), 3 / 25, 3 / 25, 0)),
  identical(attributes(six)[c("power_to_act", "power_to_act_exact")], list(power_to_act = 7 / 32, power_to_act_exact = "7/32")), is.null(attr(board, "power_to_act"))
)

# a table prints without the exact values, and is merged with them
shown <- capture.output(print(six))
wide <- merge(board, council(52, c(50, 49, 1), names = c("C", "B", "D")), all = TRUE)
stopifnot(
  inherits(six, c("council", "data.frame"), which = TRUE) == 1:2, identical(shown[1], "quota 12 of 17; 4 minimal winning coalitions, 14 winning coalitions"), any(grepl("0.238095", shown)), !any(grepl("5/21|_exact", shown)),
  any(grepl("5/21", capture.output(print(six, exact = TRUE)))), identical(format(six, digits = 2)$penrose[1], "0.31"), startsWith(capture.output(print(council(2, c(1, 1), title = "T")))[1], "T: quota 2 of 2"),
  identical(capture.output(print(six[1:2, 1:2])), c(" name weight", "    1      4", "    2      4")),
  identical(class(as.data.frame(six)), "data.frame"), setequal(names(attributes(as.data.frame(six))), c("names", "row.names", "class")), identical(as.data.frame(six)$banzhaf_exact, six$banzhaf_exact),
  identical(class(wide), "data.frame"), identical(wide$name, c("A", "B", "C", "D")), identical(wide$deegan_packel_exact.x, c("1/2", "1/4", "1/4", NA)), identical(wide$public_good_exact.y, c(NA, "1/2", "1/2", "0/1"))
)

# the library is asked at the end only
library_path <- Sys.getenv("COUNCIL_LIBRARY")
Sys.setenv(COUNCIL_LIBRARY = "")

# what an error says
said <- function(expr) tryCatch({ expr; "nothing" }, council_refused = function(it) "refused", error = conditionMessage)

# names of the weights, and 1, 2, .. without any
stopifnot(
  identical(council(51, c(x = 50, y = 49, z = 1))$name, c("x", "y", "z")),
  identical(council(51, c(50, 49, 1))$name, c("1", "2", "3")),
  identical(council(51, cbind(c(x = 50, y = 49, z = 1)))$name, c("x", "y", "z")),
  identical(council(51, data.frame(votes = c(50, 49, 1), row.names = c("x", "y", "z")))$name, c("x", "y", "z")),
  identical(council(51, data.frame(votes = c(1, 50, 49, 1))[2:4, , drop = FALSE])$name, c("1", "2", "3")),
  identical(council(c(2, 1), list(votes = c(1, 1), heads = c(1, 1)))$name, c("1", "2")),
  identical(council(51, data.frame(x = 50, y = 49, z = 1))$name, c("x", "y", "z")), identical(council(51, list(x = 50, y = 49, z = 1))$name, c("x", "y", "z")),
  identical(council(51, list(c(x = 50, y = 49, z = 1)))$name, c("x", "y", "z")), identical(council(c(5, 3), list(x = c(3, 1), y = c(2, 1), z = 2:1))$name, c("x", "y", "z")),
  identical(council(51, c(50, 49, 1), names = factor(c("z", "y", "x")))$name, c("z", "y", "x")),
  identical(council(51L, c(50L, 49L, 1L), names = c(7, 8, 9))$name, c("7", "8", "9"))
)

# a game file, its text, or its lines
lines <- c("title = \"\"", "quota = 100000 # all", "[[member]]", "name = \"A\"", "weight = 100000")
stopifnot(
  identical(council(game = "[51; 50, 49, 1]")$public_good_exact, board$public_good_exact),
  identical(council(game = lines), council(1e5, 1e5, names = "A")), identical(council(game = paste(lines, collapse = "\n")), council(game = lines))
)

# several rules, as a matrix, a data frame and a list
votes <- cbind(votes = c(3, 2, 2, 1), heads = 1)
two <- council(c(5, 3), votes, names = LETTERS[1:4])
stopifnot(
  identical(names(two)[2:3], c("weight_1", "weight_2")),
  identical(two, council(c(5, 3), as.data.frame(votes), names = LETTERS[1:4])),
  identical(two, council(c(5, 3), list(c(3, 2, 2, 1), rep(1, 4)), names = LETTERS[1:4])),
  identical(attr(two, "quota"), c(5, 3)), identical(attr(two, "total"), c(8, 4)), identical(two$weight_1, c(3, 2, 2, 1)), identical(two$weight_2, rep(1, 4)),
  identical(council(c(1, 2), cbind(1, 2))$weight_2, 2)
)

# rules joined by "or": five votes, or three heads
either <- council(c(5, 3), votes, names = LETTERS[1:4], coalitions = TRUE, ways = list(1, 2))
stopifnot(
  identical(attr(either, "coalitions"), list(c("A", "B"), c("A", "C"), c("B", "C", "D"))), identical(either$coalitions, c(2, 2, 2, 1)),
  identical(attr(either, "ways"), list(1L, 2L)), identical(attr(two, "ways"), list(1:2)), identical(attr(board, "ways"), list(1L)),
  identical(council(c(5, 3), votes, names = LETTERS[1:4], ways = list(c(1, 2))), two),
  grepl("the line other", tryCatch(council:::read_report(c("members\t1", "other\t1"), FALSE), error = conditionMessage))
)

# what is hardly meant is warned of
warned <- function(expr) tryCatch({ expr; "nothing" }, warning = conditionMessage)
stopifnot(
  grepl("at most half", warned(council(50, c(50, 49, 1)))), warned(council(51, c(50, 49, 1))) == "nothing", warned(council(c(50, 51), cbind(c(50, 50), c(50, 50)))) == "nothing",
  grepl("each quota of a way", warned(council(c(5, 2), votes, ways = list(1, 2)))), warned(council(c(5, 3), votes, ways = list(1, 2))) == "nothing",
  grepl("thousands", warned(council(game = "[1051; 1,000, 49, 1, 1000]"))), grepl("thousands", warned(council(game = "[300; 1,500, 49, 1]"))), grepl("thousands", warned(council(game = "[300; 200,049,100, 50]"))), warned(council(game = "[600; 100,500,49]")) == "nothing"
)

# a table by rule and by member
square <- cbind(c(3, 2), c(1, 1))
stopifnot(
  identical(council(c(5, 3), t(unname(votes)))$weight_1, c(3, 2, 2, 1)),
  grepl("square table", said(council(c(3, 2), square))), grepl("square table", said(council(c(3, 2), list(c(3, 2), c(1, 1))))), grepl("^by is", said(council(c(3, 2), square, by = "x"))),
  identical(council(c(4, 1), square, by = "rule")$weight_2, c(1, 1)), identical(council(c(3, 2), square, by = "member")$weight_2, c(2, 1)),
  identical(council(c(4, 1), as.data.frame(square))$weight_1, c(3, 2)), grepl("square table", said(council(c(4, 1), rbind(votes = c(3, 2), heads = c(1, 1)))))
)

# the coalitions
listed <- council(51, c(A = 50, B = 49, C = 1), coalitions = TRUE)
stopifnot(identical(attr(listed, "coalitions"), list(c("A", "B"), c("A", "C"))), length(attr(council(4, rep(1, 10), coalitions = TRUE), "coalitions")) == choose(10, 4))

# more than can be listed are counted
many <- council(20, rep(1, 40))
stopifnot(identical(attr(many, "minimal"), 137846528820), identical(many$public_good_exact[1], "1/40"))

# names with quotes, backslashes, and letters of other scripts
hard <- c("it's", "\"q\"", "a\\b", "=1+1", "\u4e2d\u6587", "e\u0301", " ", "#", "a|b", "NA")
stopifnot(identical(council(6, rep(1, length(hard)), names = hard)$name, enc2utf8(hard)))
latin <- c("\xe9", "name = \"\xe9\"")
Encoding(latin) <- "latin1"
spelled <- council(1, 1, names = latin[1], title = latin[1])
stopifnot(
  identical(c(spelled$name, attr(spelled, "title")), c("\u00e9", "\u00e9")),
  identical(council(game = c("quota = 1", "[[member]]", latin[2], "weight = 1"))$name, "\u00e9")
)

# refused games are conditions with the fault, its line and the explanation
refused <- function(...) {
  tryCatch({
    council(...)
    stop("the game was not refused")
  }, council_refused = identity)
}
bad <- refused(51, c(50, 16.5))
stopifnot(
  inherits(bad, "council_refused"), inherits(bad, "error"), identical(bad$fault, "bad weight of member 2"), identical(bad$status, 3L), identical(bad$line, NA_integer_),
  identical(bad$explanation[1], "weight = 16.5"), length(bad$explanation) > 1, any(grepl("multiply", bad$explanation)),
  conditionMessage(bad) == paste(c(bad$fault, bad$explanation), collapse = "\n"), identical(conditionCall(bad), quote(council(...))),
  rawToChar(bad$game) == "quota = 51\n\n[[member]]\nname = \"1\"\nweight = 50\n\n[[member]]\nname = \"2\"\nweight = 16.5\n"
)
stopifnot(
  identical(refused(200, c(50, 49))$fault, "quota out of range"),
  identical(refused(c(5, 3), votes, ways = list(1))$fault, "bad ways"), identical(refused(c(5, 3), votes, ways = list(1:2, numeric(0)))$fault, "bad ways"),
  identical(refused(1, rep(1, 41))$fault, "bad member list"),
  identical(refused(1, numeric(0))$status, 3L),
  identical(refused(2, c(1, 1), names = c("A", "A"))$fault, "member 2 repeats a name"),
  identical(refused(1, 1, names = "A\x7f")$fault, "bad name of member 1"),
  identical(refused(1, 1, names = "A\x1f")$fault, "bad name of member 1"),
  identical(refused(20, rep(1, 40), coalitions = TRUE)[c("status", "line")], list(status = 4L, line = NA_integer_)),
  identical(refused(game = "[51; 50, 49,, 1]")$fault, "bad bracket text"),
  identical(refused(game = "\nquota = ")$line, 2L),
  identical(refused(1, c(1, Inf))$fault, "bad weight of member 2"),
  identical(refused(1, 1234567.5)$explanation[1], "weight = 1234567.5"),
  identical(refused(1, 0.1)$explanation[1], "weight = 0.1"),
  identical(refused(1, 1e15)$explanation[1], "weight = 1000000000000000"),
  identical(refused(1, c(1, 1e8 + 1e-7))$fault, "bad weight of member 2"), identical(council(0.29 * 100, c(0.29 * 100, 1))$weight, c(29, 1))
)

# a file of the greatest length, and a longer one
path <- tempfile()
cat(formatC("[51; 50, 49, 1]", width = -65536), file = path)
stopifnot(identical(council(file = path)$weight, board$weight))
cat(" ", file = path, append = TRUE)
stopifnot(identical(refused(file = path)$fault, "the game file is longer than 65536 bytes"))

# what is no game at all is an ordinary error
ways <- "give a quota and weights, or a file, or a game"
parts <- "give a quota and weights"
belong <- "names, a title, by = and ways = belong to a quota and weights"
uneven <- "the columns of weights are not equally long"
absent <- "the program council was not found: put it on the PATH, or name it by program ="
stopifnot(
  said(council()) == ways, said(council(51, c(50, 1), file = "x")) == ways, said(council(51, file = "x")) == ways, said(council(weights = 1, file = "x")) == ways,
  said(council(file = "x", game = "[1; 1]")) == ways, said(council(51)) == parts, said(council(weights = 1)) == parts,
  said(council(game = "[1; 1]", names = "A")) == belong, said(council(game = "[1; 1]", title = "T")) == belong, said(council(file = "x", names = "A")) == belong, said(council(game = "[1; 1]", ways = list(1))) == belong,
  grepl("^ways is a list", said(council(c(5, 3), votes, ways = 1:2))), said(council(c(5, 3), votes, ways = list("1"))) == "a rule is no number",
  said(council(51, c(50, NA))) == "a weight is NA", said(council(NA_real_, 1)) == "a quota is NA", said(council(1, c("1", "1"))) == "a weight is no number",
  said(council("1", 1)) == "a quota is no number", said(council(1, TRUE)) == "a weight is no number",
  said(council(c(1, 2), c(1, 2))) == "there are 2 quotas, and 1 columns of weights", said(council(c(1, 1, 1), cbind(c(1, 1), 1))) == "there are 3 quotas, and 2 columns of weights",
  said(council(c(1, 2), list(c(1, 2), 1))) == uneven, said(council(c(1, 2), list(1, c(1, 2)))) == uneven, said(council(numeric(0), list())) == uneven,
  said(council(51, c(50, 1), names = "A")) == "there are 2 weights, and 1 names", said(council(1, 1, names = c("A", "B"))) == "there are 1 weights, and 2 names",
  said(council(1, 1, names = NA)) == "a name is NA", said(council(file = "no-such-file.toml")) == "there is no file no-such-file.toml",
  said(council(51, c(50, 1), program = "no-such-program")) == absent
)

# which program: the one that is named, that of the option, that of the variable, the one on the PATH
script <- function(path, line) {
  dir.create(dirname(path), showWarnings = FALSE, recursive = TRUE)
  writeLines(c("#!/bin/sh", line), path)
  Sys.chmod(path)
  invisible(path)
}
here <- file.path(normalizePath(tempdir()), "programs")
real <- council:::find_program()
words <- script(file.path(here, "words"), "echo \"council: $*\" >&2; exit 1")
silent <- script(file.path(here, "silent"), "exit 1")
noting <- script(file.path(here, "noting"), paste("echo council: a note >&2; exec", shQuote(real), "\"$@\""))
kept <- Sys.getenv(c("PATH", "COUNCIL_PROGRAM"))
stopifnot(
  grepl("^--explain --tally /", refused(1, 1, program = words)$fault),
  grepl("^--explain --list --most 4000000 --swings /", refused(1, 1, coalitions = TRUE, swings = TRUE, program = words)$fault),
  grepl("^--explain --only-swings /", refused(1, 1, only_swings = TRUE, program = words)$fault),
  said(council(1, 1, only_swings = TRUE, swings = TRUE)) == "only_swings = TRUE goes without swings = TRUE and coalitions = TRUE",
  warned(council(51, c(50, 49, 1), program = noting)) == "a note",
  identical(refused(1, 1, program = silent)$fault, "council ended with status 1"), identical(refused(1, 1, program = silent)$line, NA_integer_)
)
Sys.setenv(COUNCIL_PROGRAM = silent)
stopifnot(identical(refused(1, 1)$status, 1L))
options(council.program = real)
stopifnot(council(1, 1)$weight == 1, identical(refused(1, 1, program = silent)$status, 1L))
options(council.program = "")
Sys.setenv(COUNCIL_PROGRAM = "", PATH = paste(here, kept["PATH"], sep = ":"))
stopifnot(file.symlink(real, file.path(here, "council")), council(1, 1)$weight == 1)
do.call(Sys.setenv, as.list(kept))
options(council.program = NULL)

# a launcher of a clone is never run: the program that it has built is
launcher <- script(file.path(here, "clone", "council"), "exit 1")
built <- file.path(here, "clone", "crates", "council", "out", "council")
script(file.path(here, "clone", "tools", "built.sh"), "")
stopifnot(
  file.copy(real, file.path(here, "clone", "copy")), council(1, 1, program = file.path(here, "clone", "copy"))$weight == 1,
  file.symlink(launcher, file.path(here, "link")),
  said(council(1, 1, program = file.path(here, "link"))) ==
    paste0("the program of ", here, "/clone was never built: run ", here, "/clone/council once, which takes 6 to 15 minutes"),
  dir.create(dirname(built), recursive = TRUE), file.symlink(real, built), council(1, 1, program = file.path(here, "link"))$weight == 1
)

# by the library, if there is one, all is the same, without a program
games <- list(
  list(51, c(A = 50, B = 49, C = 1), title = "T\u00e9"), list(12, c(4, 4, 4, 2, 2, 1), coalitions = TRUE), list(c(5, 3), votes, coalitions = TRUE, ways = list(1, 2)), list(c(5, 3), votes, ways = list(2:1)),
  list(20, rep(1, 40)), list(1e12, c(1e12, 3)), list(51, list(x = 50, y = 49, z = 1)), list(37, 2^(0:5), coalitions = TRUE), list(1234567, 100000 + (1:30)^3)
)
ask_all <- function() lapply(games, function(it) lapply(c(FALSE, TRUE), function(swings) suppressWarnings(do.call(council, c(it, list(swings = swings))))))
by_program <- ask_all()
if (nzchar(library_path)) {
  Sys.setenv(COUNCIL_LIBRARY = library_path, COUNCIL_PROGRAM = "no-such-program")
  stopifnot(identical(ask_all(), by_program), said(council(51, c(50, 16.5))) == absent, said(council(51, c(50, 1), program = "no-such-program")) == absent, grepl("at most half", warned(council(50, c(50, 49, 1)))))
  do.call(Sys.setenv, as.list(kept))
  stopifnot(identical(refused(200, c(50, 49))$fault, "quota out of range"), identical(refused(20, rep(1, 40), coalitions = TRUE)$status, 4L), identical(refused(1, c(1, 1), names = c("A", "A"))$fault, "member 2 repeats a name"), identical(refused(c(5, 3), votes, ways = list())$fault, "bad ways"), identical(refused(c(5, 3), votes, ways = list(1))$fault, "bad ways"))
}

# nothing is left of the runs
stopifnot(length(list.files(tempdir(), "^(game|out|err)")) == 0)
