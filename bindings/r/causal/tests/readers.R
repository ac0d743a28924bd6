# The readers of answers: a test for each object.
library(causal)
own <- function(name) getFromNamespace(name, "causal")
same <- function(a, b) stopifnot(identical(a, b))
read <- function(reader, ...) own(reader)(own("read_json")(paste0(...)))

# JSON
json <- own("read_json")
same(json("{}"), list())
same(json('{"a":[],"b":{"c":null,"d":[true,false,-12]},"e":"","f":null}'), list(a = list(), b = list(d = list(TRUE, FALSE, -12)), e = ""))
same(json("[[1],[],[[]]]"), list(list(1), list(), list(list())))
signs <- "{\"[],:}\u00c5\u4e2d\U1F600\\ \\n\\u00c5"
for (text in list(signs, "", "\\", "\\\\\"", "a\nb\tc\rd\be\ff\001\037/", "true", "12")) {
  written <- gsub("\"", "\\\"", gsub("\\", "\\\\", text, fixed = TRUE), fixed = TRUE)
  for (sign in list(c("\n", "\\n"), c("\t", "\\t"), c("\r", "\\r"), c("\b", "\\b"), c("\f", "\\f"), c("\001", "\\u0001"), c("\037", "\\u001F")))
    written <- gsub(sign[1], sign[2], written, fixed = TRUE)
  same(json(paste0("[\"", written, "\",{\"", written, "x\":\"", written, "\"}]")), list(text, stats::setNames(list(text), paste0(text, "x"))))
}
same(json("\"a\\u0000b\\/\""), "a<00>b/")
# each byte that is escaped, a long name, and a long text of escapes
bytes <- c(1:31, 34, 92)
written <- c(sprintf("\\u%04x", 1:31), "\\\"", "\\\\")
same(json(paste0("[\"", paste(written, collapse = ""), "\"]")), list(intToUtf8(bytes)))
for (k in seq_along(bytes)) same(json(paste0("\"\\\\", written[k], "\u00c5\\\\", written[k], " \"")), paste0("\\", intToUtf8(bytes[k]), "\u00c5\\", intToUtf8(bytes[k]), " "))
name <- strrep("\u00c5a", 32768)
same(json(paste0("[\"", name, "\"]")), list(name))
same(json(paste0("\"", strrep("\\\\mid \\\"\u00c5\\\" \\n", 20000), "\"")), strrep("\\mid \"\u00c5\" \n", 20000))
deep <- json(paste0(strrep("[", 300), strrep("]", 300)))
for (level in 1:299) deep <- deep[[1]]
same(deep, list())
wide <- json(paste0("[", paste(rep("[\"\u00c5\",\"a\"]", 20000), collapse = ","), "]"))
same(c(length(wide), wide[[20000]][[1]]), c("20000", "\u00c5"))
same(own("texts")(json("[\"a\",[99,97,102,233]]")), c("a", "caf<e9>"))
told <- list(out = "{\"answer\":\"formula\",\"free\":[\",\\\"certificate\\\":\"],\"certificate\":{\"a\":[\"certificate\",1.50]}}\n")
same(own("object_of")(told), list(answer = "formula", free = list(",\"certificate\":"), certificate = "{\"a\":[\"certificate\",1.50]}"))

# Names as they are printed, terms, paths
same(own("printed")(c("A", "b,c", "#a", "a#", "\u2192x", "x\u2192", "a-b", "\u00c5", "q0")), c("A", "\"b,c\"", "\"#a\"", "a#", "\"\u2192x\"", "x\u2192", "\"a-b\"", "\u00c5", "q0"))
same(own("printed")(character()), character())
same(own("term_text")(c("Y", "a b"), "X", c("Z", "W")), "P(Y,\"a b\"|do(X),Z,W)")
same(c(own("term_text")("Y"), own("term_text")("Y", given = "X"), own("term_text")("Y", "X")), c("P(Y)", "P(Y|X)", "P(Y|do(X))"))
path <- read("read_path", '{"vertices":["X","A","m -> n","Y"],"marks":["<-","->","<->"]}')
same(unclass(path), list(vertices = c("X", "A", "m -> n", "Y"), marks = c("<-", "->", "<->"), text = "X <- A -> \"m -> n\" <-> Y"))
same(unclass(read("read_path", '{"vertices":["X"],"marks":[]}')), list(vertices = "X", marks = character(), text = "X"))

# graph
graph <- read("read_graph", '{"answer":"graph","vertices":[{"name":"X","role":"exposure"},{"name":"odd name","role":"latent"},{"name":"Z","role":null}],',
              '"directed":[["X","odd name"]],"bidirected":[["X","Z"]],"text":"dag {\\n}\\n"}')
same(as.list(graph$vertices), list(name = c("X", "odd name", "Z"), role = c("exposure", "latent", "")))
same(as.list(graph$edges), list(from = c("X", "X"), edge = c("->", "<->"), to = c("odd name", "Z")))
none <- read("read_graph", '{"answer":"graph","vertices":[],"directed":[],"bidirected":[],"text":"dag {\\n}\\n"}')
same(lapply(none, function(frame) vapply(frame, typeof, "")), list(vertices = c(name = "character", role = "character"),
                                                                   edges = c(from = "character", edge = "character", to = "character")))
same(c(nrow(none$vertices), nrow(none$edges)), c(0L, 0L))

# separate
same(read("read_separation", '{"answer":"separated","x":["A"],"y":["C","D"],"given":[]}'),
     list(holds = TRUE, x = "A", y = c("C", "D"), given = character(), path = NULL))
no <- read("read_separation", '{"answer":"not separated","x":["A"],"y":["C"],"given":["B"],"open":{"vertices":["A","B","C"],"marks":["->","<-"]}}')
same(c(no$holds, no$path$marks), c("FALSE", "->", "<-"))

# rule
rule <- read("read_rule", '{"answer":"holds","rule":2,"y":["M"],"do":[],"z":["X"],"given":[],"left":"P(M|do(X))","right":"P(M|X)"}')
same(rule, list(rule = 2L, holds = TRUE, equation = "P(M|do(X)) = P(M|X)", path = NULL))
rule <- read("read_rule", '{"answer":"does not hold","rule":2,"y":["Y"],"do":[],"z":["X"],"given":[],"left":"P(Y|do(X))","right":"P(Y|X)",',
             '"open":{"vertices":["Y","X"],"marks":["<->"]}}')
same(rule[c("holds", "equation")], list(holds = FALSE, equation = "P(Y|do(X)) = P(Y|X)"))
same(rule$path$text, "Y <-> X")

# identify: a formula, with definitions and free variables
formula <- read("read_formula", '{"answer":"formula","y":["Y"],"x":["X"],"given":[],"effect":"P(Y|do(X))","formula":"q0 / (sum{Y} q0)",',
                '"definitions":["sum{W} P(W) * P(X|W,Z) * P(Y|W,Z,X)"],"free":["Z","v w"],"latex":"P(Y \\\\mid X) = q_{0}\\nq_{0} = P(Y)",',
                '"tree":{"definition":0},"definition_trees":[]}')
same(formula, list(target = "P(Y|do(X))", expression = "q0 / (sum{Y} q0)", definitions = "sum{W} P(W) * P(X|W,Z) * P(Y|W,Z,X)",
                   free = c("Z", "v w"), latex = c("\\begin{aligned}", "P(Y \\mid \\mathrm{do}(X)) &= q_{0}", "\\end{aligned}"),
                   printed_latex = c("P(Y \\mid X) = q_{0}", "q_{0} = P(Y)")))
trees <- read("read_trees", '{"tree":{"definition":0},"definition_trees":[{"term":["A"],"do":[],"given":[]}]}')
same(trees, list(list(term = list("A"), do = list(), given = list()), list(definition = 0)))

# identify: a hedge with its models, of the effect or of a joint one
sets <- '"hedge":{"larger":["X","Y"],"smaller":["Y"],"roots":["Y"],"choices":[{"vertex":"X","child":"Y"}],"links":[["X","Y"]]}'
models <- paste0('"models":{"causes":[{"acts_on":["X","Y"],"weights":["1","1"]},{"acts_on":["Y"],"weights":["3","1"]},{"acts_on":["Y"],"weights":["3","1"]}],',
                 '"first":[{"bit":"h","vertex":"X","sum":[{"cause":0}]},{"bit":"h","vertex":"Y","sum":[{"bit":"h","vertex":"X"},{"cause":0},{"cause":1}]},',
                 '{"bit":"k","vertex":"Y","sum":[{"bit":"h","vertex":"Y"},{"cause":2}]}],"second":[{"bit":"h","vertex":"X","sum":[{"cause":0}]},',
                 '{"bit":"h","vertex":"Y","sum":[{"cause":1}]},{"bit":"k","vertex":"a b","sum":[]}],',
                 '"event":{"sum":[{"bit":"k","vertex":"Y"}],"first":"1/2","second":"1/2 + 1/2^3"}}')
hedge <- read("read_hedge", '{"answer":"hedge","y":["Y"],"x":["X"],"given":[],"effect":"P(Y|do(X))","joint":{"y":["Y"],"x":["X"]},', sets, ",", models, "}")
same(hedge[c("target", "big", "small", "roots", "conditional")], stats::setNames(list("P(Y|do(X))", c("X", "Y"), "Y", "Y", NULL), c("target", "big", "small", "roots", NA)))
same(unlist(hedge$choice), c(from = "X", to = "Y"))
same(unlist(hedge$links), c(from = "X", to = "Y"))
same(unclass(hedge$causes$on), list(c("X", "Y"), "Y", "Y"))
same(as.list(hedge$causes[c("cause", "weight_0", "weight_1")]), list(cause = 0:2, weight_0 = c(1L, 3L, 3L), weight_1 = c(1L, 1L, 1L)))
same(hedge$first$bit, c("h(X)", "h(Y)", "k(Y)"))
same(hedge$first$terms[[2]], c("h(X)", "c0", "c1"))
same(hedge$second$bit[3], "k(\"a b\")")
same(unclass(hedge$second$terms)[2:3], list("c1", character()))
same(hedge[c("event", "in_first", "in_second", "difference")], list(event = "Y", in_first = "1/2", in_second = "1/2 + 1/2^3", difference = 0.125))
joint <- read("read_hedge", '{"answer":"hedge","y":["Y"],"x":["X"],"given":["Z w"],"effect":"P(Y|do(X),\\"Z w\\")","joint":{"y":["Y","Z w"],"x":["X"]},', sets, ",",
              models, "}")
same(joint[c("target", "conditional")], list(target = "P(Y,\"Z w\"|do(X))", conditional = "P(Y|do(X),\"Z w\")"))

# surrogate
stopped <- read("read_stopped", '{"answer":"not found","y":["Y"],"x":["X"],"given":[],"experiments":[["Z"]],"effect":"P(Y|do(X))","district":["Y"],', sets, "}")
same(stopped, list(target = "P(Y|do(X))", district = "Y", big = c("X", "Y"), small = "Y", roots = "Y"))
common <- read("read_hedge", '{"answer":"hedge","y":["Y"],"x":["X"],"given":[],"experiments":[["Z"]],"effect":"P(Y|do(X))","district":["Y"],', sets, ",", models, "}")
same(common[c("target", "district", "big", "difference")], list(target = "P(Y|do(X))", district = "Y", big = c("X", "Y"), difference = 0.125))

# check
plain <- paste0('"effect":"P(Y|do(X))","formula":"P(Y|X)","definitions":[],"free":[],"latex":"P(Y \\\\mid X)",',
                '"tree":{"term":["Y"],"do":[],"given":["X"]},"definition_trees":[]}')
plain_formula <- list(target = "P(Y|do(X))", expression = "P(Y|X)", definitions = character(), free = character(),
                      latex = c("\\begin{aligned}", "P(Y \\mid \\mathrm{do}(X)) &= P(Y \\mid X)", "\\end{aligned}"), printed_latex = "P(Y \\mid X)")
judged <- read("read_judgement", '{"answer":"accepted","of":"formula","y":["Y"],"x":["X"],"given":[],', plain)
same(judged, list(accepted = TRUE, formula = plain_formula))
judged <- read("read_judgement", '{"answer":"accepted","of":"hedge","y":["Y"],"x":["X"],"effect":"P(Y|do(X))",', sets, "}")
same(judged, list(accepted = TRUE, hedge = list(target = "P(Y|do(X))", big = c("X", "Y"), small = "Y", roots = "Y")))
judged <- read("read_judgement", '{"answer":"refused","of":"formula","at":{"lemma":null,"step":12},"number":3,"message":"the separation of the rule fails",',
               '"open":{"vertices":["Y","M"],"marks":["<-"]}}')
same(judged[c("accepted", "fault", "at", "step")], list(accepted = FALSE, fault = 3L, at = "main", step = 12L))
same(judged$path$vertices, c("Y", "M"))
refused <- function(at, number) read("read_judgement", '{"answer":"refused","of":"formula","at":', at, ',"number":', number, ',"message":"no"}')
same(refused('{"lemma":0,"step":2}', 8)[c("fault", "at", "step")], list(fault = 8L, at = "lemma 0", step = 2L))
same(refused('{"lemma":null,"step":null}', 9)[2:4], list(fault = 9L, at = "main", step = NULL))
same(refused('{"lemma":3,"step":null}', 9)$at, "lemma 3")
same(refused("null", 10)[2:3], list(fault = 10L, at = NULL))
of_hedge <- function(number, rest = "") read("read_judgement", '{"answer":"refused","of":"hedge","number":', number, ',"message":"no"', rest, "}")
same(of_hedge(1), list(accepted = FALSE, hedge_fault = 1L, at = NULL))
same(of_hedge(4, ',"vertex":"a b"')$at, "a b")
same(of_hedge(5, ',"vertex":null')$at, NULL)

# adjust
adjusted <- read("read_adjustment", '{"answer":"admissible","x":["X"],"y":["Y"],"set":[],', plain)
same(adjusted, c(list(holds = TRUE, set = character()), plain_formula))
adjusted <- read("read_adjustment", '{"answer":"not admissible","x":["X"],"y":["Y"],"set":["D"],"forbidden":"D"}')
same(adjusted, list(holds = FALSE, set = "D", forbidden = "D"))
adjusted <- read("read_adjustment", '{"answer":"not admissible","x":["X"],"y":["Y"],"set":["M"],',
                 '"open":{"vertices":["X","A","M","B","Y"],"marks":["<-","->","<-","->"]}}')
same(names(adjusted), c("holds", "set", "path"))
same(adjusted$path$vertices, c("X", "A", "M", "B", "Y"))

# instruments
found <- read("read_instruments", '{"answer":"instruments","x":["X"],"y":["Y"],"instruments":[{"vertex":"W","strata":[],"more":false},',
              '{"vertex":"a b","strata":[[],["W","c,d"]],"more":true}]}')
same(found, list(strata = list("a b" = list(character(), c("W", "c,d"))), more = "a b"))
none <- read("read_instruments", '{"answer":"none","x":["X"],"y":["Y"],"instruments":[]}')
same(list(length(none$strata), none$more), list(0L, character()))

# levels in a line
same(own("printed_level")(c("a\nb", "\r", "a \"c\" \\", "\\n", "plain", "")), c('"a\\nb"', '"\\r"', '"a \\"c\\" \\\\"', "\\n", "plain", ""))
same(own("level_text")(list(A = "a\nb", B = 1)), 'A="a\\nb", B=1')

# equivalent
same(read("read_equivalence", '{"answer":"equivalent"}'), list(holds = TRUE))
differ <- read("read_equivalence", '{"answer":"not equivalent","difference":{"kind":"collider","vertices":["A","B","C"],"in":"second"},',
               '"separated_in":"first","separation":{"x":["A"],"y":["C"],"given":["B"]}}')
same(differ, list(holds = FALSE, difference = "collider", vertices = c("A", "B", "C"), difference_in = "second", separated_in = "first",
                  x = "A", y = "C", given = "B"))
agree <- read("read_equivalence", '{"answer":"equivalent","x":["A"],"y":["b c"],"given":[],"separated":true}')
same(agree, list(holds = TRUE, separated = TRUE, x = "A", y = "b c", given = character()))
agree <- read("read_equivalence", '{"answer":"equivalent","x":["A"],"y":["B"],"given":[],"separated":false,',
              '"first":{"vertices":["A","B"],"marks":["->"]},"second":{"vertices":["A","B"],"marks":["<-"]}}')
same(list(agree$separated, agree$paths[[1]]$marks, agree$paths[[2]]$text), list(FALSE, "->", "A <- B"))

# implications
pairs <- read("read_implications", '{"answer":"implications","pairs":[{"x":"A","y":"C","given":["B"],"difference":"-5","cell":[["A","0"],["C","1"],["B","1"]]}]}')
same(pairs, list(a = "A", b = "C", given = list("B"), difference = "-5", cells = list(c(A = "0", C = "1", B = "1"))))
same(read("read_implications", '{"answer":"none","pairs":[]}')[c("a", "given")], list(a = character(), given = list()))

# evaluate
exact <- read("read_effects", '{"answer":"values","exact":true,"y":["Y"],"x":["X"],"given":[],"pinned":[["Z","0"],["a b","2"]],"cells":[',
              '{"y":[["Y","0"]],"x":[["X","0"]],"given":[],"value":"657/1471"},{"y":[["Y","1"]],"x":[["X","0"]],"given":[],"value":"814/1471"}]}')
same(exact$pinned, c(Z = "0", "a b" = "2"))
same(exact[c("y", "x")], list(y = list(c(Y = "0"), c(Y = "1")), x = list(c(X = "0"), c(X = "0"))))
same(exact$fraction, c("657/1471", "814/1471"))
bounds <- '{"answer":"values","exact":false,"y":["S","R"],"x":[],"given":["from"],"pinned":[],"cells":[{"y":[["S","small"],["R","\\"from\\":\\"1"]],"x":[],"given":[["from","0"]],"from":"0.832546217385603774","to":"0.832546217385603777"}]}'
found <- read("read_effects", bounds)
same(found$y, list(c(S = "small", R = "\"from\":\"1")))
same(found[c("pinned", "from", "to")], list(pinned = NULL, from = "0.832546217385603774", to = "0.832546217385603777"))
same(list(unname(found$x[[1]]), found$given[[1]]), list(character(), c(from = "0")))
same(own("bounds_in")(bounds, "to"), 0.832546217385603777)
same(own("bounds_in")(bounds, "from"), 0.832546217385603774)
same(own("cells_of")(bounds), own("cells_of")(sub("0.832546217385603774", "0", bounds, fixed = TRUE)))
stopifnot(own("cells_of")(bounds) != own("cells_of")(sub("small", "large", bounds, fixed = TRUE)))
