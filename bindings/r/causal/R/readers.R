# The readers of answers. With `--json` the library answers by an object on one line; a reader for each object gives the fields
# of the answer in R. They rename, and decide nothing.

# A value of JSON: objects and arrays are lists, and a member that is null isn't there. What the library writes has the form of
# JSON, so that the signs between values needn't be looked at. (Base R has no reader of JSON, and with these lines the package
# needs no other one.)
read_json <- function(line) {
  tokens <- json_tokens(line)
  first <- substr(tokens, 1, 1)
  opens <- first == "{" | first == "["
  ends <- first == "}" | first == "]"
  texts <- unescaped(substring(tokens, 2, nchar(tokens, "bytes") - 1))
  leaves <- as.list(texts)
  is_word <- first != "\"" & !opens & !ends
  leaves[is_word] <- lapply(tokens[is_word], function(word) switch(word, true = TRUE, false = FALSE, null = NULL, as.numeric(word)))
  at <- 0
  value <- function() {
    start <- at <<- at + 1
    if (!opens[start]) return(leaves[[start]])
    found <- list()
    while (!ends[at + 1]) {
      key <- if (first[start] == "{") texts[at <<- at + 1] else length(found) + 1
      found[[key]] <- value()
    }
    at <<- at + 1
    found
  }
  value()
}

# The brackets, texts, numbers and words of a line. Bytes are counted and not characters, of which R would look for each from the
# start.
json_tokens <- function(line) {
  Encoding(line) <- "bytes"
  form <- '"[^"\\\\]*+(?:\\\\.[^"\\\\]*+)*+"|[^][{}",:]+|[][{}]'
  found <- gregexpr(form, line, perl = TRUE, useBytes = TRUE)[[1]]
  substring(line, found, found + attr(found, "match.length") - 1)
}

escapes <- c("\\\"" = "\"", "\\/" = "/", "\\b" = "\b", "\\f" = "\f", "\\n" = "\n", "\\r" = "\r", "\\t" = "\t")

# The bytes below 32 by their numbers; a null byte is shown as in `as_text`.
codes <- stats::setNames(rep(c("<00>", intToUtf8(1:31, multiple = TRUE)), 2), sprintf(rep(c("\\u%04x", "\\u%04X"), each = 32), 0:31))

# Texts of UTF-8 without their escapes. They are cut at escaped backslashes, between which each other backslash begins an escape.
unescaped <- function(texts) {
  has <- grep("\\", texts, fixed = TRUE, useBytes = TRUE)
  if (length(has)) {
    pieces <- strsplit(paste0(texts[has], " "), "\\\\", fixed = TRUE, useBytes = TRUE)
    parts <- replaced(unlist(pieces), escapes)
    coded <- grep("\\u", parts, fixed = TRUE, useBytes = TRUE)
    if (length(coded)) parts[coded] <- replaced(parts[coded], codes)
    whole <- vapply(split(parts, rep(seq_along(pieces), lengths(pieces))), paste, "", collapse = "\\")
    Encoding(whole) <- "bytes"
    texts[has] <- substring(whole, 1, nchar(whole, "bytes") - 1)
  }
  Encoding(texts) <- "UTF-8"
  texts
}

replaced <- function(texts, signs) {
  for (sign in names(signs)) texts <- gsub(sign, signs[[sign]], texts, fixed = TRUE, useBytes = TRUE)
  texts
}

# The object of an answer. A certificate stands last in it, and is kept as the library wrote it.
object_of <- function(told) {
  line <- sub("\n$", "", told$out)
  at <- regexpr(',"certificate":', line, fixed = TRUE)
  if (at < 0) return(read_json(line))
  c(read_json(paste0(substring(line, 1, at - 1), "}")), list(certificate = substring(line, at + 15, nchar(line) - 1)))
}

# A text, or the bytes of one that isn't UTF-8.
text_in <- function(value) if (is.list(value)) as_text(as.raw(unlist(value))) else value

texts <- function(array) vapply(array, text_in, "")

# Sets under these keys of an object, by other names where the keys have some.
sets_in <- function(object, keys) {
  stats::setNames(lapply(object[keys], texts), if (is.null(names(keys))) keys else names(keys))
}

# Columns as a data frame, with any names.
frame_of <- function(columns) {
  names(columns) <- make.unique(names(columns))
  structure(columns, class = "data.frame", row.names = .set_row_names(length(columns[[1]])))
}

# All parts of texts that have a form.
all_of <- function(form, texts) unlist(regmatches(texts, gregexpr(form, texts, perl = TRUE)))

# A name that the library prints without quotes: it has none of these characters, and begins with no # and no arrow.
bare_form <- "[^ \\t\\r\\n{}\\[\\]\";=,<>@()|*/-]+"
bare_name <- paste0("^(?![#\u2190-\u21ff\u27f0-\u27ff\u2900-\u297f])", bare_form, "$")

# Names as the library prints them.
printed <- function(names) {
  is_quoted <- !grepl(bare_name, names, perl = TRUE)
  replace(names, is_quoted, paste0("\"", names[is_quoted], "\"", recycle0 = TRUE))
}

# Levels as the library prints them: between quotation marks where they have one, or a line break.
printed_level <- function(levels) {
  breaks <- grep("[\n\r\"]", levels)
  texts <- levels[breaks]
  for (sign in c("\\", "\"")) texts <- gsub(sign, paste0("\\", sign), texts, fixed = TRUE)
  texts <- gsub("\r", "\\r", gsub("\n", "\\n", texts, fixed = TRUE), fixed = TRUE)
  replace(levels, breaks, paste0("\"", texts, "\"", recycle0 = TRUE))
}

# P(of|do(do),given) as the library prints it.
term_text <- function(of, do = character(), given = character()) {
  several <- function(names) paste(printed(names), collapse = ",")
  behind <- c(if (length(do)) paste0("do(", several(do), ")"), if (length(given)) several(given))
  paste0("P(", several(of), if (length(behind)) paste0("|", paste(behind, collapse = ",")), ")")
}

# An open path, where there is one: its vertices and the marks between them.
read_path <- function(open) {
  if (is.null(open)) return(NULL)
  vertices <- texts(open$vertices)
  marks <- texts(open$marks)
  text <- paste(c(printed(vertices), marks)[order(c(seq_along(vertices), seq_along(marks) + 0.5))], collapse = " ")
  structure(list(vertices = vertices, marks = marks, text = text), class = "causal_path")
}

read_graph <- function(object) {
  roles <- vapply(object$vertices, function(vertex) if (is.null(vertex$role)) "" else vertex$role, "")
  list(vertices = frame_of(list(name = texts(lapply(object$vertices, `[[`, "name")), role = roles)), edges = read_edges(object))
}

read_edges <- function(object) {
  pairs <- c(object$directed, object$bidirected)
  marks <- rep(c("->", "<->"), c(length(object$directed), length(object$bidirected)))
  frame_of(list(from = texts(lapply(pairs, `[[`, 1)), edge = marks, to = texts(lapply(pairs, `[[`, 2))))
}

read_separation <- function(object) {
  c(list(holds = object$answer == "separated"), sets_in(object, c("x", "y", "given")), list(path = read_path(object$open)))
}

read_rule <- function(object) {
  list(rule = as.integer(object$rule), holds = object$answer == "holds", equation = paste(object$left, "=", object$right),
       path = read_path(object$open))
}

# A formula: the effect, the main expression, the definitions, the free variables, and all that in LaTeX: by its trees, and as the library
# prints it.
read_formula <- function(object) {
  parts <- list(y = texts(object$y), x = texts(object$x), given = c(texts(object$given), texts(object$observed)))
  list(target = object$effect, expression = object$formula, definitions = texts(object$definitions), free = texts(object$free),
       latex = latex_equations(list(trees = read_trees(object), parts = parts)), printed_latex = lines_of(object$latex))
}

# The trees of the same, that of the main expression last.
read_trees <- function(object) c(object$definition_trees, list(object$tree))

lines_of <- function(text) strsplit(text, "\n", fixed = TRUE)[[1]]

# The effect that a hedge is of, and the hedge's sets.
read_hedge_sets <- function(object) {
  c(list(target = object$effect), sets_in(object$hedge, c(big = "larger", small = "smaller", roots = "roots")))
}

# A hedge with its models, and with the district that stops a search over experiments. Where a condition was given, the hedge is
# of a joint effect, and the one that was asked for stands beside it.
read_hedge <- function(object) {
  read <- read_hedge_sets(object)
  if (length(object$given)) {
    read$target <- term_text(texts(object$joint$y), texts(object$joint$x))
    read$conditional <- object$effect
    read$settled <- object$settled
  }
  models <- object$models
  c(read, list(choice = pairs_frame(lapply(object$hedge$choices, `[`, c("vertex", "child")))),
    list(links = pairs_frame(object$hedge$links), causes = read_causes(models$causes)),
    list(first = read_model(models$first), second = read_model(models$second)), read_event(models$event),
    if (!is.null(object$district)) sets_in(object, "district"))
}

pairs_frame <- function(pairs) frame_of(list(from = texts(lapply(pairs, `[[`, 1)), to = texts(lapply(pairs, `[[`, 2))))

# The hidden causes: their number, the vertices that they serve, and the weights of their two values.
read_causes <- function(causes) {
  weight <- function(value) vapply(causes, function(cause) as.integer(cause$weights[[value]]), 0L)
  on <- lapply(causes, function(cause) texts(cause$acts_on))
  frame_of(list(cause = seq_along(causes) - 1L, on = I(on), weight_0 = weight(1), weight_1 = weight(2)))
}

# The bits of a model: each is the sum, modulo 2, of its terms, which are bits and causes.
read_model <- function(model) {
  frame_of(list(bit = vapply(model, bit_text, ""), terms = I(lapply(model, function(part) vapply(part$sum, bit_text, "")))))
}

bit_text <- function(it) {
  if (is.null(it$cause)) paste0(it$bit, "(", printed(text_in(it$vertex)), ")") else paste0("c", it$cause)
}

read_event <- function(event) {
  list(event = texts(lapply(event$sum, `[[`, "vertex")), in_first = event$first, in_second = event$second,
       difference = 2^-as.integer(sub("^.*\\^", "", event$second)))
}

# The district that stops a search over experiments, with the sets of a hedge.
read_stopped <- function(object) append(read_hedge_sets(object), sets_in(object, "district"), after = 1)

# The judgement of a certificate: accepted with what it shows, or the first fault.
read_judgement <- function(object) {
  if (object$of == "parts") return(read_parts(object))
  is_hedge <- object$of == "hedge"
  if (object$answer == "accepted") {
    shown <- if (is_hedge) list(hedge = read_hedge_sets(object)) else list(formula = read_formula(object))
    return(c(list(accepted = TRUE), shown))
  }
  number <- as.integer(object$number)
  if (is_hedge) return(list(accepted = FALSE, hedge_fault = number, at = text_in(object$vertex)))
  at <- object$at
  list(accepted = FALSE, fault = number, at = if (!is.null(at)) if (is.null(at$lemma)) "main" else paste("lemma", at$lemma),
       step = if (!is.null(at$step)) as.integer(at$step), path = read_path(object$open))
}

# The same of a certificate in parts: the effect with the formula of each part, or the first fault, whose part is numbered from 0.
read_parts <- function(object) {
  if (object$answer == "accepted") return(list(accepted = TRUE, effect = object$effect, parts = lapply(object$parts, read_formula)))
  fault <- object$fault
  names <- unlist(lapply(fault[intersect(c("treatment", "child", "vertex"), names(fault))], text_in))
  list(accepted = FALSE, parts_fault = as.integer(fault$number), part = if (!is.null(fault$part)) as.integer(fault$part), at = c(unname(names), texts(fault$district)),
       derivation = if (!is.null(fault$derivation)) read_judgement(fault$derivation))
}

# The steps of a certificate: a row for each expression, with the lemma, which is NA in main, and the move that makes it, and beside each
# the rule for which the move asks. Where the answer is that of `check`, its judgement.
read_steps <- function(object) {
  if (object$answer != "explained") return(read_judgement(object))
  rows <- unlist(lapply(object$parts, function(part) {
    lapply(c(list(list(after = part$start)), part$moves), function(move) c(move, list(lemma = if (is.null(part$lemma)) NA else part$lemma)))
  }), recursive = FALSE)
  part <- function(key) lapply(rows, `[[`, key)
  columns <- list(lemma = as.integer(unlist(part("lemma"))), move = vapply(part("step"), word_of, ""), expression = texts(lapply(part("after"), `[[`, "text")))
  list(accepted = TRUE, formula = read_formula(object), steps = frame_of(columns), rules = lapply(part("rule"), read_asked_rule))
}

# The word of a move, which may be at a place.
word_of <- function(step) {
  if (is.null(step)) return("")
  if (step[[1]] == "at") word_of(step[[3]]) else step[[1]]
}

# The rule for which a move asks, with the edges of the graph in which it is asked.
read_asked_rule <- function(rule) {
  if (is.null(rule)) return(NULL)
  c(list(rule = as.integer(rule$number)), sets_in(rule, c("y", "z", "do", "given")), list(edges = read_edges(rule$graph)))
}

# Whether a set may be adjusted for, with the formula; or what speaks against it, an open path or a member.
read_adjustment <- function(object) {
  answer <- list(holds = object$answer == "admissible", set = texts(object$set))
  if (answer$holds) return(c(answer, read_formula(object)))
  answer$path <- read_path(object$open)
  answer$forbidden <- text_in(object$forbidden)
  answer
}

# The instruments with their sets of strata, and those of which there are more. The object also has the vertices without a set.
read_instruments <- function(object) {
  found <- Filter(function(it) length(it$strata) > 0, object$instruments)
  names <- texts(lapply(found, `[[`, "vertex"))
  list(strata = stats::setNames(lapply(found, function(it) lapply(it$strata, texts)), names), more = names[vapply(found, function(it) it$more, NA)])
}

# Whether two graphs are equivalent, with what both say of the sets that were asked about; or the first difference with its
# separation.
read_equivalence <- function(object) {
  if (object$answer == "equivalent") return(c(list(holds = TRUE), read_agreement(object)))
  difference <- object$difference
  c(list(holds = FALSE, difference = difference$kind, vertices = texts(difference$vertices), difference_in = difference[["in"]],
         separated_in = object$separated_in), sets_in(object$separation, c("x", "y", "given")))
}

# What equivalent graphs say of sets: nothing was asked, they are separated in both, or a path of each is open.
read_agreement <- function(object) {
  if (is.null(object$separated)) return(NULL)
  if (object$separated) return(c(list(separated = TRUE), sets_in(object, c("x", "y", "given"))))
  list(separated = FALSE, paths = list(read_path(object$first), read_path(object$second)))
}

# The pairs that are separated, each with its set, and over counts the largest difference of each with its levels.
read_implications <- function(object) {
  part <- function(key) lapply(object$pairs, `[[`, key)
  list(a = texts(part("x")), b = texts(part("y")), given = lapply(part("given"), texts),
       difference = as.character(unlist(part("difference"))), cells = lapply(part("cell"), read_levels))
}

# The effects over a table of counts: the pinned levels, the cells, and the value of each as a fraction or as bounds.
read_effects <- function(object) {
  cells <- object$cells
  levels <- function(key) lapply(cells, function(cell) read_levels(cell[[key]]))
  numbers <- function(key) vapply(cells, `[[`, "", key)
  pinned <- if (length(object$pinned)) read_levels(object$pinned)
  given <- lapply(cells, function(cell) read_levels(c(cell$given, cell$observed)))
  c(list(pinned = pinned, y = levels("y"), x = levels("x"), given = given),
    if (object$exact) list(fraction = numbers("value")) else list(from = numbers("from"), to = numbers("to")))
}

# The levels at which an effect is less than what was observed of it.
read_less <- function(object) lapply(object$less[c("y", "x", "given", "observed")], read_levels)

# Levels by name, as text.
read_levels <- function(cell) stats::setNames(texts(lapply(cell, `[[`, 2)), texts(lapply(cell, `[[`, 1)))

# What effects are at least and at most; or why a set is no instrument; or the bounds that cross.
read_bounds <- function(object) {
  if (object$answer == "no instrument")
    return(list(answer = object$answer, moved = if (!is.null(object$moved)) text_in(object$moved), path = read_path(object$open)))
  cells <- if (object$answer == "bounds") object$cells else list(object$crossed)
  ends <- function(key) vapply(cells, `[[`, "", key)
  list(answer = object$answer, exact = object$answer != "bounds" || isTRUE(object$exact), x = lapply(cells, function(cell) read_levels(cell$x)),
       y = lapply(cells, function(cell) read_levels(cell$y)), given = lapply(cells, function(cell) c(read_levels(cell$given), read_levels(cell$strata))),
       at_least = ends("at_least"), at_most = ends("at_most"))
}

# An effect among the treated without a formula: the treatment, its child, the bidirected path that leads back, and the hedge where one is told.
read_confounded <- function(object) {
  target <- term_text(texts(object$y), texts(object$x), c(texts(object$given), texts(object$observed)))
  joint <- term_text(texts(object$joint$y), texts(object$joint$x))
  object$given <- list()
  c(list(target = target, treatment = text_in(object$treatment), child = text_in(object$child), path = read_path(object$path), joint = joint),
    if (object$answer == "hedge") list(hedge = utils::modifyList(read_hedge(object), list(target = joint)))
    else if (!is.null(object$two_values)) list(two_values = text_in(object$two_values)))
}
