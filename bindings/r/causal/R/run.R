# The calls into the library. Everything that the package tells comes from here.

causal_run <- function(words, inputs = list()) run_on(words, inputs, NULL)

# The same on a diagram that the library keeps, which stands for the file; NULL for none.
run_on <- function(words, inputs, kept) {
  if (!is.character(words) || anyNA(words)) refuse("`words` has to be a character vector without missing values")
  inputs <- as.list(inputs)
  names <- names(inputs)
  if (length(inputs) && (is.null(names) || anyNA(names))) refuse("each input needs a name")
  answer <- .Call(call_causal, enc2utf8(words), enc2utf8(as.character(names)), lapply(unname(inputs), as_bytes), kept)
  if (answer[[1]] == 11L) refuse("what is kept of the diagram isn't what the library kept")
  list(status = answer[[1]], out = as_text(answer[[2]]), err = as_text(answer[[3]]))
}

# The bytes of a text; several lines are joined by line feeds.
as_bytes <- function(text) {
  if (is.raw(text)) return(text)
  if (!is.character(text) || anyNA(text)) refuse("an input has to be text, or a raw vector")
  charToRaw(enc2utf8(paste(text, collapse = "\n")))
}

# The text of bytes. A byte that isn't UTF-8 is shown as <xx>, and a null byte as <00>.
as_text <- function(bytes) {
  if (any(bytes == 0)) {
    bytes <- unlist(lapply(bytes, function(b) if (b == 0) charToRaw("<00>") else b))
  }
  text <- rawToChar(bytes)
  Encoding(text) <- "UTF-8"
  if (validUTF8(text)) text else iconv(text, "UTF-8", "UTF-8", sub = "byte")
}

# What the library answers to a command about a diagram, which it keeps where it can.
answer_to <- function(command, diagram, words, inputs) {
  kept <- if (inherits(diagram, "causal_diagram")) keep(diagram)
  run_on(c(command, "diagram", words), c(if (is.null(kept)) list(diagram = diagram$text), inputs), kept)
}

# Asks a question about a diagram, whose answer is an object of JSON (see `object_of`), with its certificate where that is
# wanted. `yes` tells whether the status is 0; the status 1 is the answer no. Any other status is an error of the class
# `causal_fault`, but for those that the caller wants handed back. `asked` is the question, by which `text_of` has the answer as
# text.
ask <- function(command, diagram, words = character(), inputs = list(), hand_back = integer(), certificate = FALSE) {
  answer <- answer_to(command, diagram, c(words, flag("certificate", certificate), "--json"), inputs)
  if (answer$status > 1 && !answer$status %in% hand_back) stop(with_meant(causal_fault(answer, c(list(diagram = diagram$text), inputs)), diagram))
  answer$yes <- answer$status == 0
  answer$asked <- list(command = command, words = words, inputs = inputs)
  answer
}

# A fault of a name that the diagram hasn't, with the one that may be meant.
with_meant <- function(fault, diagram) {
  names <- diagram$vertices$name
  if (fault$stage != "target" || !fault$number %in% c(1, 8) || !length(names)) return(fault)
  retold(fault, meant(fault$names[1], setdiff(names, fault$names)), "; the diagram has ", listed(names))
}

# The text that the library prints for a question.
text_of <- function(asked, diagram) {
  answer <- answer_to(asked$command, diagram, asked$words, asked$inputs)
  if (answer$status > 1) stop(causal_fault(answer, list(diagram = diagram$text)))
  sub("\n$", "", answer$out)
}

# An option with a list of names: no word for NULL, so that the marks of the diagram count.
option <- function(name, names) {
  if (is.null(names)) character() else c(paste0("--", name), list_word(names))
}

# A list of experiments, each a set of names, as one word; a single set needn't be in a list.
experiments_word <- function(experiments) {
  paste(vapply(if (is.list(experiments)) experiments else list(experiments), list_word, ""), collapse = ";")
}

flag <- function(name, wanted) {
  check_flag(gsub("-", "_", name, fixed = TRUE), wanted)
  if (wanted) paste0("--", name) else character()
}

list_word <- function(names) {
  names <- enc2utf8(as.character(names))
  check_names(names)
  if (length(names)) paste0('"', names, '"', collapse = ",") else "{}"
}

check_names <- function(names) {
  bad <- is.na(names) | names == "" | grepl('"', names, fixed = TRUE)
  if (any(bad)) refuse("no name of a vertex is missing, empty or has a double quote in it: ", encodeString(names[bad][1]))
}
