# Each question, with the answers that the library prints for them.
library(causal)
same <- function(a, b) stopifnot(identical(a, b))

# Diagrams
front_door <- causal_diagram("dag { X [exposure] Y [outcome] X -> M -> Y X <-> Y }")
same(front_door$vertices$name, c("X", "Y", "M"))
same(front_door$vertices$role, c("exposure", "outcome", ""))
same(format(causal_diagram(c("dag {", "A -> B", "}"))), c("dag {", "A", "B", "A -> B", "}"))
same(as.character(causal_diagram("dag{A}")), "dag{A}")
print(front_door)
print(summary(front_door))
hidden <- causal_diagram("dag { U [latent] U -> X U -> Y X -> Y }")
same(project(hidden)$edges$edge, c("->", "<->"))
same(summary(hidden)$roles$latent, "U")
file <- tempfile(fileext = ".dag")
writeLines("dag { \"\u00c5 b\" -> C }", file, useBytes = TRUE)
same(read_diagram(file)$vertices$name, c("\u00c5 b", "C"))

# Many new diagrams, also on a machine that is busy
taken <- system.time(for (k in 1:1000) causal_diagram(paste0("dag { A", k, " -> B -> C -> D E -> F -> D A", k, " <-> D G -> H -> D }")))
stopifnot(taken[["user.self"]] < 15)
for (wrong in list(3e9, NULL, NA_character_, list("dag {}"), TRUE)) stopifnot(grepl("an input has to be text", try(causal_diagram(wrong), silent = TRUE)))

# Diagrams of other objects
same(as_causal_diagram("dag{A->B}")$edges$to, "B")
dagitty <- structure("dag {\nbb=\"0,0,1,1\"\nD [outcome,pos=\"1.4,1.6\"]\nE [exposure,pos=\"-2.2,1.5\"]\nE -> D\n}\n", class = "dagitty")
same(as_causal_diagram(dagitty)$vertices$role, c("outcome", "exposure"))
adjacency <- matrix(0, 3, 3, dimnames = list(c("X", "M", "Y"), c("X", "M", "Y")))
adjacency["X", "M"] <- adjacency["M", "Y"] <- 1
joined <- adjacency * 0
joined["Y", "X"] <- 1
made <- as_causal_diagram(adjacency, bidirected = joined, exposure = "X", outcome = "Y")
same(identify_effect(made)$text, identify_effect("dag{X M Y X->M->Y X<->Y}", x = "X", y = "Y")$text)
edges <- data.frame(from = c("a,b", "M"), to = c("M", "c d"), edge = c("->", "<-"))
made <- as_causal_diagram(edges, vertices = "alone", latent = "M")
same(made$vertices$name, c("alone", "a,b", "M", "c d"))
same(made$edges$from, c("a,b", "c d"))
writeBin(as.raw(c(0x64, 0x61, 0x67, 0x7b, 0x41, 0x00, 0x7d)), file)
stopifnot(grepl("null byte", try(read_diagram(file), silent = TRUE)))
stopifnot(inherits(try(as_causal_diagram(matrix(1, 1, 1, dimnames = list("A", "A"))), silent = TRUE), "try-error"))
stopifnot(inherits(try(as_causal_diagram(data.frame(from = "a\"b", to = "c")), silent = TRUE), "try-error"))

# Separation
fork <- causal_diagram("dag { A <- B -> C }")
same(is_separated(fork, "A", "C", "B"), TRUE)
same(is_separated(fork, "A", "C"), FALSE)
drawn <- causal_diagram("dag { A <- U -> B B -> C U [latent] \"d e\" }")
same(is_separated(drawn, "A", c("C", "d e"), "B"), TRUE)
same(is_separated(drawn, "A", "C"), FALSE)
same(is_separated("dag{A->B}", "A", "B"), FALSE)
for (sets in list(list("U", "C", "B"), list("none", "C", "B"), list("A", "C", "C"), list("A", character(), "B"), list(c("A", "A"), "C", "B"))) {
  fault <- tryCatch(is_separated(drawn, sets[[1]], sets[[2]], sets[[3]]), causal_fault = identity)
  wanted <- tryCatch(separated(drawn, sets[[1]], sets[[2]], sets[[3]]), causal_fault = identity)
  stopifnot(inherits(fault, "causal_fault"))
  same(conditionMessage(fault), conditionMessage(wanted))
}
answer <- separated(fork, "A", "C", "B")
stopifnot(answer$holds, as.logical(answer), is.null(answer$path))
same(as.character(answer), "separated: {A} from {C} given {B}")
answer <- separated("dag{talent [exposure] looks [outcome] fame [adjusted] talent -> fame <- looks}")
stopifnot(!answer$holds)
same(answer$path$vertices, c("talent", "fame", "looks"))
odd <- separated("dag { \"a,b\" -> \"c d\" }", "a,b", "c d")
same(odd$path$vertices, c("a,b", "c d"))
same(separated("dag { \u00c5 -> \u00f6 }", "\u00c5", "\u00f6")$path$vertices, c("\u00c5", "\u00f6"))
latin <- iconv("\u00c5", "UTF-8", "latin1")
stopifnot(!separated("dag { \u00c5 -> B }", latin, "B")$holds)

# Rules
answer <- rule_holds(front_door, 2, y = "M", z = "X")
stopifnot(answer$holds)
same(answer$equation, "P(M|do(X)) = P(M|X)")
answer <- rule_holds(front_door, 2, y = "Y", z = "X")
same(answer$path$marks, "<->")
stopifnot(rule_holds(front_door, 3, y = "Y", z = "X", do = "M")$holds)

# Effects
formula <- identify_effect(front_door)
stopifnot(inherits(formula, "causal_formula"), formula$identifiable)
same(formula$text, "P(Y|do(X)) = sum{M} P(M|X) * (sum{X} P(X) * P(Y|X,M))")
stopifnot(as.logical(formula))
stopifnot(startsWith(formula$certificate, "{\"answer\":\"formula\""))
same(unclass(toLatex(formula)), c("\\[", "\\begin{aligned}", "P(Y \\mid \\mathrm{do}(X)) &= \\sum_{M} P(M \\mid X) \\bigl( \\sum_{X} P(X) P(Y \\mid X, M) \\bigr)",
                                  "\\end{aligned}", "\\]"))
napkin <- identify_effect("dag { W -> Z -> X -> Y W <-> X W <-> Y }", x = "X", y = "Y")
same(napkin$free, "Z")
same(napkin$definitions, "sum{W} P(W) * P(X|W,Z) * P(Y|W,Z,X)")
same(length(napkin$printed_latex), 2L)
same(napkin$latex[c(1, 4)], c("\\begin{aligned}", "\\end{aligned}"))
hedge <- identify_effect("dag { X [exposure] Y [outcome] X -> Y X <-> Y }")
stopifnot(inherits(hedge, "causal_hedge"), !hedge$identifiable, startsWith(hedge$certificate, "{\"answer\":\"hedge\""))
same(hedge$difference, 0.125)
same(as.logical(hedge), FALSE)
same(c(hedge$conditional, hedge$settled), NULL)

# Under a condition: whether the models of the joint effect differ on the effect that was asked for
bow <- "dag { X [exposure] Y [outcome] X -> Y X <-> Y"
same(identify_effect(paste(bow, "Z -> Y }"), given = "Z")$settled, TRUE)
joint <- identify_effect(paste(bow, "Z -> Y Z <-> Y }"), given = "Z")
same(list(joint$target, joint$settled), list("P(Y,Z|do(X))", TRUE))
same(check_certificate(joint$diagram, joint)$hedge$target, "P(Y,Z|do(X))")
same(identify_effect(paste(bow, "Y -> Z }"), given = "Z")$settled, FALSE)
same(identify_effect(paste(bow, "Y -> \"a; b\" U [latent] }"), "X", "Y", given = "a; b")$settled, FALSE)
same(as.logical(surrogate("dag { X -> Y X <-> Y X -> Z }", "X", "Y", experiments = "Z")), FALSE)
stopifnot(inherits(try(as.logical(adjustment_sets("dag { X -> Y }", "X", "Y")), silent = TRUE), "try-error"))
print(summary(hedge))
same(identify_effect(front_door, x = character(), y = "M")$text, "P(M) = P(M)")

same(identify_effect(dagitty)$text, "P(D|do(E)) = P(D|E)")
stopifnot(inherits(try(identify_effect(front_door, sets = "M"), silent = TRUE), "try-error"))

# The call of the package graphics is no other one, and takes a diagram too
same(identify, graphics::identify)
stopifnot(!any(c("identify", "plot") %in% ls("package:causal")))
same(identify(front_door)$text, formula$text)
same(identify(front_door, "X", "M")$text, "P(M|do(X)) = P(M|X)")

# Certificates
stopifnot(check_certificate(front_door, formula)$accepted, check_certificate(front_door, formula$certificate)$holds)
judged <- check_certificate("dag { X -> Y X <-> Y }", hedge)
same(judged$hedge$roots, "Y")
wrong <- sub("[\"rule3out\",[\"X\"]]", "[\"rule3out\",[\"X\",\"M\"]]", formula$certificate, fixed = TRUE)
judged <- check_certificate("dag { X M Y X -> M -> Y X <-> Y }", wrong)
same(judged[c("accepted", "fault", "at", "step")], list(accepted = FALSE, fault = 3L, at = "main", step = 12L))

# Certificates over experiments
trial <- causal_diagram("dag { X [exposure] Y [outcome] Z -> X -> Y Z <-> X Z <-> Y }")
over <- surrogate(trial, experiments = "Z")
stopifnot(check_certificate(trial, over, experiments = "Z")$accepted)
same(check_certificate(trial, over, experiments = list("Z", c("X", "Z")))$formula$free, "Z")
same(check_certificate(trial, over)$fault, 10L)
stopped <- surrogate("dag { Z -> X -> Y Z <-> X Z <-> Y X <-> Y }", "X", "Y", experiments = "Z", models = TRUE)
judged <- check_certificate(stopped$diagram, stopped, experiments = "Z")
same(judged$hedge[c("target", "big", "small")], list(target = "P(Y|do(X))", big = c("X", "Y"), small = "Y"))
same(judged$text, paste("accepted", "P(Y|do(X)) is not identifiable from these experiments", "hedge {X,Y} over {Y} with roots {Y}", sep = "\n"))
same(check_certificate(stopped$diagram, stopped)$hedge, judged$hedge)
same(check_certificate(stopped$diagram, stopped, experiments = "X")[c("accepted", "hedge_fault")], list(accepted = FALSE, hedge_fault = 7L))
fault <- tryCatch(check_certificate(trial, over, experiments = "none"), causal_target_fault = identity)
same(fault$number, 1L)

# Adjustment
exported <- "dag { A B D [outcome] E [exposure] Z A -> E A -> Z B -> D B -> Z E -> D Z -> D Z -> E }"
sets <- adjustment_sets(exported)
same(as.list(sets), list(c("A", "Z"), c("B", "Z")))
stopifnot(!sets$more, adjustment_sets(exported, most = 1)$more)
same(adjustment_sets("dag { X -> Y X <-> Y }", "X", "Y")$sets, list())
answer <- adjusts("dag { X <- A -> M <- B -> Y X -> Y }", "M", "X", "Y")
same(answer$path$vertices, c("X", "A", "M", "B", "Y"))
answer <- adjusts("dag { X -> Y X -> D }", "D", "X", "Y", back_door = TRUE)
same(answer$forbidden, "D")
answer <- adjusts("dag { X -> Y X -> D }", character(), "X", "Y")
same(answer$expression, "P(Y|X)")

# Instruments
found <- instruments("dag { A -> Z A -> B -> Y Z -> X -> Y X <-> Y }", "X", "Y")
same(found$text, "A given {B}\nZ given {A}\nZ given {B}")
same(as.list(found), list(A = list("B"), Z = list("A", "B")))
same(found$more, character())
same(as.list(as.data.frame(found)), list(instrument = c("A", "Z", "Z"), strata = c("{B}", "{A}", "{B}")))
same(instruments(found$diagram, "X", "Y", most = 1)$more, "Z")
same(as.data.frame(instruments("dag { \"a b\" -> X -> Y X <-> Y }", "X", "Y"))$strata, "{}")
none <- instruments("dag { X -> Y X <-> Y }", "X", "Y")
same(list(none$text, length(none$strata), nrow(as.data.frame(none))), list("none", 0L, 0L))
stopifnot(inherits(try(instruments("dag { X -> Y }", "X", "Y", most = 0), silent = TRUE), "try-error"))

# Equivalence
stopifnot(equivalent("dag{A->B->C}", fork)$holds)
answer <- equivalent("dag{A->B->C}", "dag{A->B<-C}")
same(answer$vertices, c("A", "B", "C"))
same(answer$separated_in, "first")
stopifnot(equivalent("dag{A->B->C}", fork, "A", "C", "B")$separated)
same(equivalent("dag{A->B->C}", fork, "A", "C")$paths[[2]]$vertices, c("A", "B", "C"))

# Drawings
pdf(NULL)
plot(front_door, main = "front door")
plot(hidden, legend = FALSE)
plot(answer <- separated(front_door, "X", "Y"))
plot(hedge)
plot(formula)
plot(causal_diagram("dag { A }"))
plot(causal_diagram("dag { }"))
plot(fork, layout = rbind(A = c(0, 0), B = c(1, 1), C = c(2, 0)))
invisible(dev.off())

# The call below
same(causal_run(c("separate", "g", "--x=A", "--y=C"), list(g = "dag{A->B<-C}")),
     list(status = 0L, out = "separated: {A} from {C} given {}\n", err = ""))
same(causal_run("nothing")$status, 2L)
same(causal_run(c("graph", "absent"))$status, 6L)
long <- paste0("dag {", paste(sprintf("\"%s%d\"", strrep("x", 5000), 1:60), collapse = " "), "}")
stopifnot(nchar(causal_run(c("graph", "g"), list(g = long))$out) > 3e5)
