\name{council}
\alias{council}
\alias{format.council}
\alias{print.council}
\alias{as.data.frame.council}
\alias{merge.council}
\title{Power indices of a weighted voting game}
\description{
Computes the Deegan-Packel index and the public good index of each member of a weighted voting game,
and if you ask for swings the Banzhaf index, Penrose's measure, the Shapley-Shubik index and Coleman's
powers, by the library or the program \command{council}, whose functions are proved to meet their
contracts.
}
\usage{
council(quota, weights, names = NULL, title = "", file = NULL, game = NULL,
        coalitions = FALSE, program = NULL, by = NULL, swings = FALSE,
        only_swings = FALSE, ways = NULL)

\method{format}{council}(x, digits = 6, exact = FALSE, ...)
\method{print}{council}(x, digits = 6, exact = FALSE, ...)
\method{as.data.frame}{council}(x, ...)
\method{merge}{council}(x, y, by = "name", ...)
}
\arguments{
\item{quota}{the quota: a coalition wins if its weight is at least that. For several rules, up to four, a
  vector of quotas; a coalition wins if it meets all rules, or those of one of the \code{ways}.}
\item{weights}{the weight of each member, in a vector. For several rules, a matrix, a data frame or a
  list with a column for each rule, or one for each member if these can be told apart. Weights and quotas
  are whole numbers.}
\item{names}{the names of the members; without them, the names that the vector, the rows of the matrix, or
  the columns for members have, or else 1, 2, ..}
\item{title}{the title of the game.}
\item{file}{instead of a quota and weights: the path of a game file.}
\item{game}{instead of them: the text of a game file, or a text such as \code{"[51; 50, 49, 1]"}.}
\item{coalitions}{whether to list all minimal winning coalitions, at most 4,000,000. Without it they are
  counted, however many there are.}
\item{program}{the program; else the library that \code{options(council.library =)} or the environment
  variable \env{COUNCIL_LIBRARY} names (none if it is empty), or the one that is beside the program; else
  the program that \code{options(council.program =)} or \env{COUNCIL_PROGRAM} names, or the one on the
  PATH. Game files, \code{only_swings} and refused games are for the program.}
\item{by}{of a square table of weights that is no data frame: \code{"rule"} if each column is a rule,
  \code{"member"} if each is a member.}
\item{swings}{whether to count the swings too, and compute the indices that rest on them.}
\item{only_swings}{whether to compute only these; not with \code{coalitions} or \code{swings}.}
\item{ways}{rules joined by "or", a list of up to six vectors of rules, counted from 1: by
  \code{list(c(1, 2), 3)} a coalition wins if it meets rules 1 and 2, or rule 3.}
\item{x, y}{tables that \code{council} has returned.}
\item{digits, exact}{how many decimals indices have, and whether the exact values are shown too.}
\item{...}{for the methods of data frames.}
}
\value{
A data frame of class \code{council} with a row for each member, in the order of the game:
\item{name}{the name}
\item{weight}{the weight; with several rules there are columns \code{weight_1}, \code{weight_2}, ..}
\item{coalitions}{in how many minimal winning coalitions the member is}
\item{deegan_packel, public_good}{both indices, as numbers: the exact ones up to two units in the last place}
\item{deegan_packel_exact, public_good_exact}{both indices as fractions in lowest terms, such as
  \code{"5/24"}; each column adds up to one exactly}
\item{swings}{how many winning coalitions lose without the member}
\item{banzhaf, penrose, shapley_shubik}{the Banzhaf index, Penrose's measure and the Shapley-Shubik index;
  Penrose's measures do not add up to one}
\item{power_to_prevent, power_to_initiate}{Coleman's powers: the share of the winning coalitions that lose
  without the member, and of the losing ones that win with it}
\item{banzhaf_exact, penrose_exact, shapley_shubik_exact, power_to_prevent_exact,
  power_to_initiate_exact}{these as fractions}
It has the attributes \code{title}, \code{quota}, \code{total}, \code{ways} (a list of vectors of rules;
without an "or" one vector of all), \code{minimal} (the number of minimal winning coalitions) and, if you
asked for them, \code{coalitions}: a list of vectors of names. With swings there are \code{winning} (the
number of winning coalitions), and \code{power_to_act} and \code{power_to_act_exact}: Coleman's power of
the body, the share of all coalitions that win.
}
\section{Warnings}{
What the program says on standard error of a report, a way with quotas of at most half only, and commas between
thousands in a bracket text are warned of.
}
\section{Refused games}{
A game that council refuses raises a condition of class \code{council_refused}. Its message says what
is wrong, where, and what is allowed. Its fields are \code{fault} (such as \code{"bad weight of member
2"}), \code{line} (the line of the game file, or \code{NA}), \code{explanation}, \code{status} (the exit
status of the program) and \code{game} (the bytes of the game file).
}
\references{
J. F. Banzhaf (1965): Weighted Voting Doesn't Work: A Mathematical Analysis. \emph{Rutgers Law Review}
19(2), 317-343.

J. S. Coleman (1971): Control of Collectivities and the Power of a Collectivity to Act. In B. Lieberman
(ed.), \emph{Social Choice}. New York: Gordon and Breach.

J. Deegan and E. W. Packel (1978): A New Index of Power for Simple n-Person Games.
\emph{International Journal of Game Theory} 7(2), 113-123.

M. J. Holler (1982): Forming Coalitions and Measuring Voting Power. \emph{Political Studies} 30(2),
262-271.

M. J. Holler and E. W. Packel (1983): Power, Luck and the Right Index. \emph{Zeitschrift fuer
Nationaloekonomie} 43(1), 21-29.

L. S. Penrose (1946): The Elementary Statistics of Majority Voting. \emph{Journal of the Royal
Statistical Society} 109(1).

L. S. Shapley and M. Shubik (1954): A Method for Evaluating the Distribution of Power in a Committee
System. \emph{American Political Science Review} 48(3).
}
\examples{
if (nzchar(Sys.which("council"))) {
  council(51, c(A = 50, B = 49, C = 1))
  # two rules: votes and heads
  council(c(5, 3), cbind(votes = c(3, 2, 2, 1), heads = 1), names = c("A", "B", "C", "D"))
  # a refused game
  tryCatch(council(51, c(50, 16.5)), council_refused = function(it) cat(conditionMessage(it)))
}
}
