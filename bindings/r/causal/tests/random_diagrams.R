# Random diagrams with odd names: what is read of the answers agrees with what was asked, and one answer with another.
library(causal)
set.seed(1)
characters <- c("a", "b", "0", "q", "P", " ", "\t", ",", "{", "}", "[", "]", "(", ")", "|", "*", "/", "-", ">", "<", "@", "=", ";", "#",
                "\\", "^", "%", "'", "+", ".", ":", "?", "\u00c5", "\u4e2d", "\U1F600", "\u00a0", "\u2192")
odd_name <- function() paste(sample(characters, sample(6, 1), TRUE), collapse = "")
levels <- c("a,b", "P(x|do(y)) = 1", "\u00c5\n\"z")
asked <- c(value = 0, none = 0, hedge = 0)

random_diagram <- function(names) {
  pairs <- t(utils::combn(length(names), 2))
  edges <- data.frame(from = names[pairs[, 1]], to = names[pairs[, 2]], edge = "->")
  edges <- edges[stats::runif(nrow(pairs)) < 0.5, ]
  joined <- transform(edges, edge = rep("<->", nrow(edges)))[stats::runif(nrow(edges)) < 0.4, ]
  list(directed = edges, all = rbind(edges, joined))
}

check_sets <- function(diagram, names, x, y, given) {
  answer <- separated(diagram, x, y, given)
  stopifnot(identical(answer$x, x), identical(answer$y, y), setequal(answer$given, given))
  if (!answer$holds) {
    path <- answer$path
    stopifnot(path$vertices[1] == x, path$vertices[length(path$vertices)] == y, all(path$vertices %in% names))
    stopifnot(endsWith(answer$text, paste0("\nopen: ", path$text)))
    stopifnot(length(path$marks) + 1 == length(path$vertices), all(path$marks %in% c("->", "<-", "<->")))
  }
  sets <- as.list(adjustment_sets(diagram, x, y))
  for (set in sets) stopifnot(all(set %in% names), adjusts(diagram, set, x, y)$holds)
  stopifnot(rule_holds(diagram, 1, y, x, given = given)$holds == answer$holds)
}

check_effect <- function(diagram, names, x, y) {
  answer <- identify_effect(diagram, x, y)
  judged <- check_certificate(diagram, answer)
  stopifnot(judged$accepted)
  if (answer$identifiable) {
    stopifnot(identical(judged$formula$expression, answer$expression), identical(judged$formula$free, answer$free))
    stopifnot(length(answer$printed_latex) == 1 + length(answer$definitions), all(answer$free %in% names))
  } else {
    stopifnot(startsWith(answer$text, paste0(getFromNamespace("term_text", "causal")(y, x), " is not identifiable\n")))
    stopifnot(all(answer$big %in% names), all(answer$small %in% answer$big), all(answer$roots %in% answer$small), x %in% answer$big)
    stopifnot(all(unlist(answer[c("choice", "links")]) %in% names), all(unlist(answer$causes$on) %in% names), all(answer$event == y))
  }
  answer
}

check_values <- function(diagram, names, x, y, effect) {
  data <- lapply(names, function(name) sample(levels, 300, TRUE))
  data <- structure(data, names = names, class = "data.frame", row.names = seq_len(300))
  values <- tryCatch(evaluate(diagram, data, x, y), causal_evaluation_fault = identity, causal_not_identifiable = identity)
  if (inherits(values, "causal_not_identifiable")) {
    asked["hedge"] <<- asked["hedge"] + 1
    stopifnot(identical(values$hedge$text, effect$text))
  } else if (inherits(values, "causal_fault")) {
    asked["none"] <<- asked["none"] + 1
    stopifnot(all(names(values$cell) %in% names), all(values$cell %in% levels))
  } else {
    asked["value"] <<- asked["value"] + 1
    stopifnot(nrow(values) == 9, identical(names(values)[1:2], c(x, y)), setequal(names(attr(values, "pinned")), effect$free))
    stopifnot(setequal(values[[1]], levels), abs(tapply(values$estimate, match(values[[1]], levels), sum) - 1) < 1e-9)
  }
}

for (round in 1:40) {
  names <- unique(replicate(sample(3:6, 1), odd_name()))
  if (length(names) < 3) next
  edges <- random_diagram(names)
  diagram <- as_causal_diagram(edges$all, vertices = names)
  again <- causal_diagram(format(diagram))
  stopifnot(identical(diagram$vertices$name, names), identical(again$vertices, diagram$vertices), identical(again$edges, diagram$edges))
  ends <- sample(names)
  check_sets(diagram, names, ends[1], ends[2], ends[-(1:2)][stats::runif(length(names) - 2) < 0.4])
  check_values(diagram, names, ends[1], ends[2], check_effect(diagram, names, ends[1], ends[2]))
  compared <- equivalent(as_causal_diagram(edges$directed, vertices = names), as_causal_diagram(edges$directed[-1, ], vertices = names))
  stopifnot(compared$holds == (nrow(edges$directed) == 0), all(c(compared$vertices, compared$x, compared$y, compared$given) %in% names))
  fault <- tryCatch(separated(diagram, ends[1], paste0(ends[2], "\n?")), causal_fault = identity)
  stopifnot(fault$number == 1, identical(fault$names, paste0(ends[2], "\n?")))
}
print(asked)
