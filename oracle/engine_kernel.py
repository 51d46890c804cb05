"""The kernel text, with which every run of a book begins."""

NAME = b'kernel'
TEXT = rb'''\catcode`\@=11
\let\bgroup={\let\egroup=}
\def\makeatletter{\catcode`\@=11\relax}\def\makeatother{\catcode`\@=12\relax}
\def~{\penalty10000\ }\def\^^M{\ }\def^^L{\par}\def\space{ }\def\nobreak{\penalty10000 }
\def\quad{\hskip1em\relax}\def\qquad{\hskip2em\relax}
\chardef\$=36 \chardef\&=38 \chardef\%=37 \chardef\#=35 \chardef\_=95
\chardef\{=123 \chardef\}=125 \chardef\textbackslash=92
\def\ldots{.\kern.18em.\kern.18em.\kern.18em}\let\dots\ldots
\def\rmfamily{\@style0 }\def\bfseries{\@style1 }\def\itshape{\@style2 }
\def\slshape{\@style3 }\def\ttfamily{\@style4 }\def\sffamily{\@style5 }
\let\normalfont\rmfamily\let\rm\rmfamily\let\bf\bfseries\let\it\itshape
\let\em\itshape\let\tt\ttfamily
\long\def\textrm#1{{\rmfamily#1}}\long\def\textbf#1{{\bfseries#1}}
\long\def\textit#1{{\itshape#1\ifhmode\/\fi}}\long\def\texttt#1{{\ttfamily#1}}
\let\emph\textit
\def\tiny{\@size0 }\def\scriptsize{\@size1 }\def\footnotesize{\@size2 }
\def\small{\@size3 }\def\normalsize{\@size4 }\def\large{\@size5 }
\def\Large{\@size6 }\def\LARGE{\@size7 }\def\huge{\@size8 }\def\Huge{\@size9 }
\def\setlength#1#2{#1 #2\relax}\def\addtolength#1#2{\advance#1 by #2\relax}
\def\newpage{\par\vfil\penalty-10000 }\let\clearpage\newpage
\def\cleardoublepage{\clearpage\ifodd\value{page}\else\hbox{}\newpage\fi}
\def\newline{\hfil\penalty-10000 }\def\linebreak{\penalty-10000 }
\def\nolinebreak{\penalty10000 }
\def\pagebreak{\ifvmode\penalty-10000 \else\vadjust{\penalty-10000 }\fi}
\def\nopagebreak{\ifvmode\penalty10000 \else\vadjust{\penalty10000 }\fi}
\def\smallskip{\vskip3pt plus1pt minus1pt\relax}
\def\medskip{\vskip6pt plus2pt minus2pt\relax}
\def\bigskip{\vskip12pt plus4pt minus4pt\relax}
\def\centering{\leftskip0pt plus1fil\relax\rightskip\leftskip
\parfillskip0pt\relax\parindent0pt\relax}
\def\raggedright{\rightskip0pt plus1fil\relax\parindent0pt\relax}
\def\thechapter{\arabic{chapter}}\def\thesection{\thechapter.\arabic{section}}
\def\thesubsection{\thesection.\arabic{subsection}}
\def\thesubsubsection{\thesubsection.\arabic{subsubsection}}
\def\theparagraph{\thesubsubsection.\arabic{paragraph}}
\def\thesubparagraph{\theparagraph.\arabic{subparagraph}}
\def\thefootnote{\arabic{footnote}}
\def\theenumi{\arabic{enumi}}\def\theenumii{\alph{enumii}}
\def\theenumiii{\roman{enumiii}}\def\theenumiv{\Alph{enumiv}}
\def\@chapapp{Chapter}\def\contentsname{Contents}
\def\chapter{\@head0 }\def\section{\@head1 }\def\subsection{\@head2 }
\def\subsubsection{\@head3 }\def\paragraph{\@head4 }\def\subparagraph{\@head5 }
\def\tableofcontents{\chapter*{\contentsname}{\makeatletter\@toc}}
\def\numberline#1{\hbox to23pt{#1\hfil}}
\def\frontmatter{\clearpage\@matter0 \pagenumbering{roman}}
\def\mainmatter{\clearpage\@matter1 \pagenumbering{arabic}}
\def\backmatter{\clearpage\@matter2 }
\def\appendix{\par\setcounter{chapter}{0}\setcounter{section}{0}%
\gdef\@chapapp{Appendix}\gdef\thechapter{\Alph{chapter}}}
\def\itemize{\@list0 }\let\enditemize\@endlist
\def\enumerate{\@list1 }\let\endenumerate\@endlist
\def\description{\@list2 }\let\enddescription\@endlist
\def\quote{\@list3 }\let\endquote\@endlist
\def\quotation{\@list4 }\let\endquotation\@endlist
\def\center{\@list5 }\let\endcenter\@endlist
\def\flushleft{\@list6 }\let\endflushleft\@endlist
\def\flushright{\@list7 }\let\endflushright\@endlist
\long\def\footnote#1{\leavevmode\stepcounter{footnote}%
\raise3.6pt\hbox{\@size1 \thefootnote}\@ins{\hsize\textwidth\leftskip0pt\relax
\rightskip0pt\relax\parindent10pt\relax\@size2 \normalfont
\indent\raise3pt\hbox{\@size0 \thefootnote}#1\par}}
\def\title#1{\gdef\@title{#1}}\def\author#1{\gdef\@author{#1}}
\def\date#1{\gdef\@date{#1}}\def\and{, }\title{}\author{}\date{\today}
\def\today{\ifcase\month\or January\or February\or March\or April\or May\or
June\or July\or August\or September\or October\or November\or December\fi
\space\number\day, \number\year}
\def\maketitle{\begin{center}{\LARGE\@title\par}\vskip15pt\relax
{\large\@author\par}\vskip10pt\relax{\large\@date\par}\end{center}}
\catcode`\@=12
'''
