\name{causal_fault}
\alias{causal_fault}
\alias{causal_graph_fault}
\alias{causal_target_fault}
\alias{causal_certificate_fault}
\alias{causal_counts_fault}
\alias{causal_evaluation_fault}
\alias{causal_words_fault}
\alias{causal_not_identifiable}
\alias{causal_missing_values}
\alias{causal_refusal}
\alias{causal_doubt}
\title{Refusals}
\description{
  All that is refused is an error of the class \code{causal_refusal}; what the library refuses has the class \code{causal_fault} too, and
  says what is wrong and where. Doubts, of what is done but may not be meant, are warnings of the class \code{causal_doubt}.
}
\details{
  A fault of the text of a graph has the class \code{causal_graph_fault}; of a set of names \code{causal_target_fault}; of a
  certificate \code{causal_certificate_fault}; of data \code{causal_counts_fault}; of a value over data
  \code{causal_evaluation_fault}; and of words that the library doesn't understand \code{causal_words_fault}. Each is also a
  \code{causal_fault} and an \code{error}. Its elements are:

  \describe{
    \item{\code{stage}, \code{number}}{the kind of fault and its number, as the program prints them.}
    \item{\code{second}}{whether it is the second of two diagrams.}
    \item{\code{sentence}}{what is wrong, in words: mostly those of the library.}
    \item{\code{byte}, \code{line}, \code{column}, \code{caret}}{the place in the text of a graph: the byte from 0, line and column
      from 1, and the line with a caret below it.}
    \item{\code{names}}{the names that the fault is about: vertices, or columns.}
    \item{\code{row}}{the row of the data.}
    \item{\code{key}, \code{version}}{the member, or the version, of a certificate.}
    \item{\code{expression}, \code{node}, \code{cell}}{the place in the formula (\code{"main"} or a definition), and the levels at
      which it has no value.}
    \item{\code{condition}}{of these levels those of a term's condition, which no record has, or those at which a divisor is 0.}
    \item{\code{printed}, \code{status}}{the line and the status of the library.}
  }

  Where an effect has to be evaluated that isn't identifiable, the error has the class \code{causal_not_identifiable} and the
  element \code{hedge}. Where a column that it needs has missing values, the class is \code{causal_missing_values}, and \code{rows} has
  the rows. A set that isn't admissible is refused by \code{causal_not_admissible}, no exposure by \code{causal_no_exposure}, a level, a
  vertex or a column that isn't there by \code{causal_unknown_level}, \code{causal_unknown_vertex} and \code{causal_unknown_column}, and other
  arguments by \code{causal_argument}.

  Faults of graphs: 1 not UTF-8, 2 no token, 3 not the grammar, 4 no \code{dag}, 5 another kind of edge, 6 an unknown flag,
  7 \code{selected}, 8 an edge from a vertex to itself, 9 more than 64 names, 10 two roles of one vertex, 11 a cycle, 12 too
  long. Of sets: 1 an unknown name, 2 a latent one, 3 a name twice, 4 no outcome, 5 no exposure, 6 the back door of several
  exposures, 7 a bidirected edge in a comparison, 8 a name in one graph alone. Of certificates: 1 no JSON, 2 a member,
  3 an unknown version, 4 too deep, 5 an unknown name, 6 too long. Of data: 1 the number of fields, 2 a missing column, 3 a
  column twice, 4 a count, 5 too many cells, 6 counts too large, 7 no records, 8 too long. Of values: 1 no support, 2 a number
  too large, 3 a divisor too small for bounds.
}
\examples{
fault <- tryCatch(causal_diagram("dag {\n  A -> B\n  B -- C\n}"), causal_fault = identity)
fault$number
cat(fault$caret, "\n")
fault <- tryCatch(separated("dag { A -> B }", "A", "Q"), causal_fault = identity)
conditionMessage(fault)
}
