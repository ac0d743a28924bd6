\name{causal_run}
\alias{causal_run}
\title{Run the Library's Words}
\description{Runs the words of a command of \command{causal} over inputs in memory, without reading the answer.}
\usage{causal_run(words, inputs = list())}
\arguments{
  \item{words}{a character vector, the words as they would follow the program's name.}
  \item{inputs}{a list named by the files that the words speak of, with texts or raw vectors; the first of a name counts.}
}
\details{
  Text is handed over in UTF-8. With the word \code{--json} the answer, or what is refused, is an object of JSON on one line. Each
  call reads its inputs anew. The other functions of the package ask the same words of a diagram that the library keeps; what is
  answered is the same. What is proved is the relation between the words, the inputs,
  the status, the answer and the line.
}
\value{
  A list with \code{status} (0 yes, 1 no, 2 the words aren't understood, 3 the graph or the target is refused, 4 the second input
  is refused, 5 the effect has no value, 6 an input isn't there, 7, 8 and 10 memory was refused, 9 a word isn't UTF-8),
  \code{out} and \code{err}.
}
\examples{
causal_run(c("separate", "g", "--x", "A", "--y", "C"), list(g = "dag { A -> B <- C }"))
causal_run(c("graph", "absent"))$status
}
