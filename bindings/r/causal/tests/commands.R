# Implications, experiments and conditions: the words that are asked, and what becomes of the answers. A stand-in for the call
# answers, in turn; the library's own answers are those of the worked cases and of the examples.
library(causal)
same <- function(a, b) stopifnot(identical(a, b))
refused <- function(call) inherits(try(call, silent = TRUE), "try-error")
run <- getFromNamespace("run_on", "causal")
asked <- list()
told <- list()
stand_in <- function(words, inputs, kept) {
  if (words[1] == "graph") return(run(words, inputs, kept))
  # the diagram is the one that is kept, and no input
  stopifnot(is.list(kept), words[2] == "diagram", !"diagram" %in% names(inputs))
  asked[[length(asked) + 1]] <<- list(words = words, inputs = inputs)
  answer <- told[[1]]
  told <<- told[-1]
  answer
}
utils::assignInNamespace("run_on", stand_in, "causal")
answering <- function(...) {
  asked <<- list()
  told <<- lapply(list(...), function(it) if (is.list(it)) it else list(status = 0L, out = paste0(it, "\n"), err = ""))
}
no <- function(...) list(status = 1L, out = paste0(..., "\n"), err = "")
refusal <- function(...) list(status = 4L, out = paste0("{\"fault\":{", ..., "}}\n"), err = "causal: a line\n")

# Implications
none <- '{"answer":"none","pairs":[]}'
answering('{"answer":"implications","pairs":[{"x":"A","y":"C","given":["B"]},{"x":"A","y":"d e","given":[]}]}')
pairs <- implications("dag { A <- B -> C \"d e\" }")
same(asked[[1]]$words, c("implications", "diagram", "--json"))
same(length(asked[[1]]$inputs), 0L)
same(pairs$a, c("A", "A"))
same(pairs$b, c("C", "d e"))
same(as.list(pairs$given), list("B", character()))
same(as.character(pairs$given), c("{B}", "{}"))
same(pairs$given[[1]], "B")
same(names(pairs), c("a", "b", "given"))
same(utils::capture.output(print(pairs))[2], "1 A   C   {B}")
answering(no(none))
same(utils::capture.output(print(implications("dag { A -> B }"))), "none")
answering(no(none), no(none))
same(nrow(implications("dag { A -> B }", data.frame(A = 1, B = 2))), 0L)

# The library names the columns that it needs; then it has the counts.
data <- data.frame(C = c("c", "c", "d", NA), A = c(TRUE, FALSE, TRUE, TRUE), B = factor(c("u", "v", "v", "v"), c("v", "u")), n = 4:1)
lacks <- function(name) refusal('"stage":"counts","number":2,"message":"there is no column of this name","name":"', name, '"')
empty <- refusal('"stage":"counts","number":7,"message":"the counts sum to 0"')
answering(lacks("A"), lacks("B"), lacks("C"), empty, empty,
          paste0('{"answer":"implications","pairs":[{"x":"A","y":"C","given":["B"],"difference":"-123456789012345678901",',
                 '"cell":[["A","2"],["C","1"],["B","2"]]}]}'))
found <- implications("dag { A <- B -> C }", data, count = "n", missing = "drop")
same(asked[[5]]$words, c("implications", "diagram", "counts", "--count=n", "--json"))
same(asked[[6]]$words, c("implications", "diagram", "counts", "--count", "count", "--json"))
same(names(asked[[6]]$inputs), "counts")
same(strsplit(asked[[6]]$inputs$counts, "\n")[[1]], c("\"A\",\"B\",\"C\",\"count\"", "1,1,1,0", "2,2,2,0", "2,2,1,4", "1,1,1,3", "2,1,2,2"))
same(found$exact, "-123456789012345678901")
stopifnot(abs(found$difference + 123456789012345678901) < 1e5)
same(found$at[[1]][c("A", "C")], list(A = TRUE, C = "c"))
same(found$at[[1]]$B, "u")
same(attr(found, "dropped"), 1)
plain <- as.data.frame(found)
same(class(plain), "data.frame")
same(plain$at, "A=TRUE,C=c,B=u")
same(utils::read.csv(text = utils::capture.output(utils::write.csv(found, row.names = FALSE)))$at, plain$at)
same(utils::read.csv(text = utils::capture.output(utils::write.csv(rbind(found, found)[2, ], row.names = FALSE)))$given, "{B}")
shown <- utils::capture.output(print(found))
stopifnot(grepl("left out for missing values: 1", shown[1]), grepl("A=TRUE,C=c,B=u", shown[3]))
answering(lacks("A"), lacks("C"), empty, lacks("C"))
caught <- tryCatch(implications("dag { A C }", data.frame(A = 1)), causal_counts_fault = identity)
same(c(caught$number, caught$names), c("2", "C"))

# Experiments
formula_of <- function(effect, formula, free = "[]", latex = "", given = "[]", more = "") {
  paste0('{"answer":"formula","y":["Y"],"x":["X"],"given":', given, more, ',"effect":"', effect, '","formula":"', formula, '","definitions":[],"free":', free,
         ',"latex":"', latex, '","tree":{},"definition_trees":[],"certificate":{"answer":"formula"}}')
}
answering(formula_of("P(Y|do(X))", "P(Y|do(Z),X)", "[\"Z\"]", "P = Q", more = ',"experiments":[["Z"]]'))
formula <- surrogate("dag { Z -> X -> Y }", "X", "Y", experiments = "Z")
words <- c("surrogate", "diagram", "--x", "\"X\"", "--y", "\"Y\"", "--experiments", "\"Z\"")
same(asked[[1]]$words, c(words, "--certificate", "--json"))
stopifnot(inherits(formula, "causal_formula"), formula$identifiable)
same(formula$certificate, "{\"answer\":\"formula\"}")
same(c(formula$expression, formula$free), c("P(Y|do(Z),X)", "Z"))
# the printed text is asked for where it is wanted
answering("P(Y|do(X)) = P(Y|do(Z),X)\nfree {Z}", "P(Y|do(X)) = P(Y|do(Z),X)\nfree {Z}", "P(Y)")
same(utils::capture.output(print(formula)), c("P(Y|do(X)) = P(Y|do(Z),X)", "free {Z}"))
same(asked[[1]]$words, words)
same(formula$text, "P(Y|do(X)) = P(Y|do(Z),X)\nfree {Z}")
same(formula[["text"]], "P(Y)")
accepted <- paste0('{"answer":"accepted","of":"formula","y":["Y"],"x":["X"],"given":[],"effect":"P(Y|do(X))","formula":"P(Y|do(Z),X)",',
                   '"definitions":[],"free":["Z"],"latex":"P = Q","tree":{"term":["Y"],"do":["Z"],"given":["X"]},"definition_trees":[]}')
answering(accepted, no('{"answer":"refused","of":"formula","at":null,"number":10,"message":"a term still has a do"}'), "refused")
stopifnot(check_certificate("dag { Z -> X -> Y }", formula, experiments = list("Z", c("a b", "c")))$accepted)
same(asked[[1]]$words, c("check", "diagram", "certificate", "--experiments", "\"Z\";\"a b\",\"c\"", "--json"))
judged <- check_certificate("dag { Z -> X -> Y }", formula)
same(list(judged$accepted, judged$text), list(FALSE, "refused"))
same(asked[[2]]$words, c("check", "diagram", "certificate", "--json"))
same(asked[[3]]$words, c("check", "diagram", "certificate"))
for (k in 2:3) same(rawToChar(asked[[k]]$inputs$certificate), formula$certificate)
stopifnot(refused(check_certificate("dag { Z -> X -> Y }", structure(list(), class = "causal_formula"))))
sets <- '"hedge":{"larger":["X","Y"],"smaller":["Y"],"roots":["Y"],"choices":[{"vertex":"X","child":"Y"}],"links":[["X","Y"]]}'
not_found <- no('{"answer":"not found","y":["Y"],"x":["X"],"given":[],"experiments":[["a;b","c"],["d,e"]],"effect":"P(Y|do(X))","district":["Y","a b"],', sets, "}")
text <- no("P(Y|do(X)) has no formula found from these experiments\ndistrict {Y,\"a b\"}\nhedge {X,Y} over {Y} with roots {Y}")
answering(not_found, text)
stopped <- surrogate("dag { X -> Y X <-> Y \"a b\" }", "X", "Y", experiments = list(c("a;b", "c"), "d,e"))
same(asked[[1]]$words[8], "\"a;b\",\"c\";\"d,e\"")
same(stopped[c("identifiable", "district", "big", "roots")], list(identifiable = FALSE, district = c("Y", "a b"), big = c("X", "Y"), roots = "Y"))
print(stopped)
same(asked[[2]]$words, asked[[1]]$words[1:8])
pdf(NULL)
plot(stopped)
invisible(dev.off())

models <- paste0('"models":{"causes":[{"acts_on":["X","Y"],"weights":["1","1"]}],"first":[{"bit":"h","vertex":"X","sum":[{"cause":0}]},',
                 '{"bit":"k","vertex":"Y","sum":[{"cause":0}]}],"second":[{"bit":"h","vertex":"X","sum":[{"cause":0}]}],',
                 '"event":{"sum":[{"bit":"k","vertex":"Y"}],"first":"1/2","second":"1/2 + 1/2^3"}},"certificate":{"answer":"hedge"}}')
common <- no('{"answer":"hedge","y":["Y"],"x":["X"],"given":[],"experiments":[["Z"]],"effect":"P(Y|do(X))","district":["Y"],', sets, ",", models)
answering(common, "a text")
stopped <- surrogate("dag { Z -> X -> Y X <-> Y }", "X", "Y", experiments = "Z", models = TRUE)
same(asked[[1]]$words, c(words, "--certificate", "--json"))
stopifnot(inherits(stopped, "causal_hedge"), !stopped$identifiable)
same(stopped$certificate, "{\"answer\":\"hedge\"}")
same(c(stopped$target, stopped$district, stopped$roots), c("P(Y|do(X))", "Y", "Y"))
same(stopped$text, "a text")
same(asked[[2]]$words, c(words, "--models"))
# without `models` the answer is the one without them
answering(common, not_found, text)
stopped <- surrogate("dag { Z -> X -> Y X <-> Y }", "X", "Y", experiments = "Z")
stopifnot(inherits(stopped, "causal_stopped"), is.null(stopped$certificate))
same(asked[[2]]$words, c(words, "--json"))

# The steps of a certificate
expression <- function(text) paste0('{"text":"', text, '","latex":"L","tree":{"term":["Y"],"do":[],"given":[]}}')
asked_rule <- '{"number":2,"y":["Y"],"z":["X"],"do":[],"given":["b c"],"graph":{"directed":[["X","Y"]],"bidirected":[["X","b c"]]}}'
told <- paste0('{"answer":"explained","y":["Y"],"x":["X"],"given":[],"effect":"P(Y|do(X))","formula":"P(Y|X)","definitions":[],"free":[],"latex":"L",',
               '"tree":{"term":["Y"],"do":[],"given":["X"]},"definition_trees":[],"parts":[{"lemma":0,"start":', expression("P(Z)"), ',"moves":[]},{"lemma":null,"start":',
               expression("P(Y|do(X))"), ',"moves":[{"step":["at",1,["at",0,["rule2see",["X"]]]],"rule":', asked_rule, ',"after":', expression("P(Y|X)"),
               '},{"step":["unchain"],"rule":null,"after":', expression("P(Y)"), "}]}]}")
answering(told, "a text")
steps_told <- steps("dag { X -> Y }", "{}", experiments = "Z")
same(asked[[1]]$words, c("steps", "diagram", "certificate", "--experiments", "\"Z\"", "--json"))
same(list(steps_told$holds, steps_told$accepted, steps_told$formula$expression), list(TRUE, TRUE, "P(Y|X)"))
same(as.data.frame(steps_told), data.frame(lemma = c(0L, NA, NA, NA), move = c("", "", "rule2see", "unchain"), expression = c("P(Z)", "P(Y|do(X))", "P(Y|X)", "P(Y)")))
same(steps_told$rules, list(NULL, NULL, list(rule = 2L, y = "Y", z = "X", do = character(), given = "b c",
     edges = data.frame(from = c("X", "X"), edge = c("->", "<->"), to = c("Y", "b c"))), NULL))
same(steps_told$text, "a text")
same(asked[[2]]$words, c("steps", "diagram", "certificate", "--experiments", "\"Z\""))
answering(no('{"answer":"refused","of":"formula","at":{"lemma":null,"step":1},"number":2,"message":"the sets of the step are wrong"}'))
judged <- steps("dag { X -> Y }", "{}")
same(list(class(judged)[1], judged$holds, judged$fault, judged$at), list("causal_judgement", FALSE, 2L, "main"))

# Conditions
answering(formula_of("P(Y|do(X),Z)", "P(Y|Z,X)", latex = "P(Y) = q_0\\nq_0 = P(Y \\\\mid X)", given = "[\"Z\"]"))
formula <- identify_effect("dag { Z -> X Z -> Y X -> Y }", "X", "Y", given = "Z")
words <- c("identify", "diagram", "--x", "\"X\"", "--y", "\"Y\"", "--given", "\"Z\"")
same(asked[[1]]$words, c(words, "--certificate", "--json"))
same(length(asked), 1L)
same(c(formula$target, formula$expression, formula$printed_latex), c("P(Y|do(X),Z)", "P(Y|Z,X)", "P(Y) = q_0", "q_0 = P(Y \\mid X)"))
same(formula$certificate, "{\"answer\":\"formula\"}")
hedge_of <- function(given, effect, y, settled = "") {
  no('{"answer":"hedge","y":["Y"],"x":["X"],"given":', given, ',"effect":"', effect, '","joint":{"y":', y, ',"x":["X"]},', settled, sets, ",", models)
}
answering(hedge_of("[\"Z\"]", "P(Y|do(X),Z)", "[\"Y\",\"Z\"]", '"settled":false,'), "P(Y|do(X),Z) not identified; P(Y,Z|do(X)) is not identifiable\nhedge {X,Y} over {Y} with roots {Y}\ncause 0")
hedge <- identify_effect("dag { X -> Y X <-> Y Y -> Z }", "X", "Y", given = c("Z"))
same(c(hedge$conditional, hedge$target), c("P(Y|do(X),Z)", "P(Y,Z|do(X))"))
same(list(length(asked), hedge$settled), list(1L, FALSE))
same(hedge$difference, 0.125)
same(length(utils::capture.output(print(summary(hedge)))), 2L)
answering(hedge_of("[]", "P(Y|do(X))", "[\"Y\"]"))
same(identify_effect("dag { X -> Y X <-> Y }", "X", "Y")$conditional, NULL)
stopifnot(refused(identify_effect("dag { X -> Y }", sets = "M")))

# Each is asked once: a rule that doesn't hold, a formula by a set, and how an effect in data is asked for
answering(no('{"answer":"does not hold","rule":3,"y":["Y"],"do":[],"z":["Z"],"given":["W"],"left":"P(Y|do(Z),W)","right":"P(Y|W)",',
             '"open":{"vertices":["Y","Z"],"marks":["<->"]}}'))
answer <- rule_holds("dag { Y <-> Z W }", 3, "Y", "Z", given = "W")
same(list(answer$equation, answer$path$text), list("P(Y|do(Z),W) = P(Y|W)", "Y <-> Z"))
by_set <- paste0('{"answer":"admissible","x":["X 1"],"y":["Y"],"set":["D"],"effect":"P(Y|do(\\"X 1\\"))","formula":"sum{D} P(D) * P(Y|\\"X 1\\",D)",',
                 '"definitions":[],"free":[],"latex":"P","tree":{"sum":["D"],"of":{"product":[{"term":["D"],"do":[],"given":[]},',
                 '{"term":["Y"],"do":[],"given":["X 1","D"]}]}},"definition_trees":[]}')
answering(by_set, by_set)
answer <- adjusts("dag { D -> \"X 1\" -> Y }", "D", "X 1", "Y")
words <- c("adjust", "diagram", "--x", "\"X 1\"", "--y", "\"Y\"", "--set", "\"D\"", "--json")
same(asked[[1]]$words, words)
same(c(answer$target, answer$expression, answer$printed_latex), c("P(Y|do(\"X 1\"))", "sum{D} P(D) * P(Y|\"X 1\",D)", "P"))
same(list(answer$definitions, answer$free), list(character(), character()))
asked_of <- getFromNamespace("asked_of", "causal")
found <- asked_of("dag { D -> \"X 1\" -> Y }", "X 1", "Y", set = "D")
same(asked[[2]]$words, words)
same(found$words, words[3:8])
same(found$formula, unclass(answer)[names(found$formula)])
divisor <- getFromNamespace("divisor_at", "causal")(found$trees, list(expression = "main", node = 3))
same(divisor, list(term = "P(Y|\"X 1\",D)", names = c("X 1", "D")))
answering(hedge_of("[]", "P(Y|do(X))", "[\"Y\"]"), "a text")
caught <- tryCatch(asked_of("dag { X -> Y X <-> Y }", "X", "Y"), causal_not_identifiable = identity)
same(c(conditionMessage(caught), caught$hedge$certificate, caught$hedge$text),
     c(paste0("P(Y|do(X)) is not identifiable: no observations determine it. The hedge is in the condition's `hedge`; ",
              "bounds_effect() says what the effect is at least and at most"), "{\"answer\":\"hedge\"}", "a text"))
same(lapply(asked, `[[`, "words"), list(c("identify", "diagram", "--x", "\"X\"", "--y", "\"Y\"", "--certificate", "--json"),
                                        c("identify", "diagram", "--x", "\"X\"", "--y", "\"Y\"")))

# Bounds by a set
stones <- data.frame(S = rep(c("small", "large"), c(4, 2)), T = c("A", "A", "B", "B", "A", "A"), R = rep(1:0, 3), n = c(81, 6, 234, 36, 192, 71))
bound <- function(arm, low, high) paste0('{"x":[["T","', arm, '"]],"y":[["R","1"]],"given":[],"at_least":"', low, '","at_most":"', high, '"}')
answering(lacks("S"), lacks("T"), lacks("R"), empty, empty,
          paste0('{"answer":"bounds","exact":true,"x":["T"],"y":["R"],"given":[],"set":["S"],"cells":[', bound(1, "15207/17980", "15207/17980"), ",",
                 bound(2, "1547/3100", "1431/1550"), "]}"))
found <- bounds_effect("dag { S -> T S -> R T -> R }", stones, "T", "R", set = "S", count = "n", exact = TRUE)
same(asked[[6]]$words, c("bounds", "diagram", "counts", "--x", "\"T\"", "--y", "\"R\"", "--set", "\"S\"", "--count", "count", "--exact", "--json"))
same(found$at_least_exact, c("15207/17980", "1547/3100"))
stopifnot(found$at_least[2] < found$at_most[2])
answering(lacks("T"), lacks("R"), empty, empty,
          no('{"answer":"not admissible","x":["T"],"y":["R"],"set":[],"open":{"vertices":["R","S","T"],"marks":["<-","->"]}}'))
found <- bounds_effect("dag { S -> T S -> R T -> R }", stones, "T", "R", set = character(), count = "n")
stopifnot(inherits(found, "causal_adjustment"), !found$holds, found$path$text == "R <- S -> T")
stopifnot(refused(bounds_effect("dag { S -> T S -> R T -> R }", stones, "T", "R", set = "S", given = "S", count = "n")))
