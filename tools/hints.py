"""What to write in place of what the language leaves out, by the fault, what precedes it and what begins at it."""

import collections
import re

# The messages of the faults (None: any), the end of the text before the place, and the beginning of the text from it on.
Hint = collections.namedtuple("Hint", "words before after advice")

NAME, GAP = r"[A-Za-z_$][\w$]*", r"(?:\s|//[^\n]*\n|/\*.*?\*/)*"
# What an expression follows; where a statement begins; a name at the beginning of a statement.
OPEN = r"(?:[=(\[,:?+\-<>|&!]|\breturn)\s*"
BEGIN = rf"(?:^|[;{{}}]){GAP}"
NAMED = rf"{BEGIN}(?!(?:let|const|print|if|else|for|case|return)\b){NAME}\s*"
FOR, IF_OR_FOR = r"(?<![.\w$])for\s*\(", r"(?<![.\w$])(?:if|for)\s*\("
HEADER = rf"{FOR}\s*let\s+{NAME}\s*=\s*0\s*;\s*{NAME}\s*"
DECLARED = r"\b(?:let|const|var)\s+"
NO_FUNCTIONS = "no functions: write the statements out; a prelude holds what scripts share"
NO_STATEMENT = "a call alone is no statement: const x = .., or print(..)"
NO_NUMBERS = "no string is read as a number: charCodeAt(i) - 48 is a digit's value"
NO_CHANGE = "arrays and objects don't change: keep a list as a string, and split it"
MEMBER = r"[=(,:?]\s*\{(?:[^{}]*,)?\s*"
NO_REGEXP = "no regular expressions: indexOf, startsWith, split, replaceAll"
ARRAYS = "arrays have .length, an index and join: a for goes over one"

# Methods of other languages, of other editions, or with another letter, and those that are there.
NEAR_NAMES = {
    "contains": "includes", "has": "includes", "trimLeft": "trimStart", "trimRight": "trimEnd", "padLeft": "padStart", "padRight": "padEnd", "startWith": "startsWith",
    "endWith": "endsWith", "startswith": "startsWith", "endswith": "endsWith", "indexof": "indexOf", "lastIndexof": "lastIndexOf", "subString": "substring", "substringOf": "substring",
    "charcodeAt": "charCodeAt", "charCodeat": "charCodeAt", "charat": "charAt", "codepointAt": "codePointAt", "replaceall": "replaceAll", "concatenate": "concat", "append": "concat",
    "strip": "trim", "repeated": "repeat", "times": "repeat", "explode": "split", "implode": "join",
}

BAD_CHARACTER = [
    ("", r"`", "no template literals: 'a' + b"),
    ("", r"#!", "no first line for a shell"),
    (r"\b(?:return|typeof|case|in|of)\s*", r"/", NO_REGEXP),
    ("", r"[*%]|/(?=\s*[\w(])(?<=[\w)\]]\s/)", "no * / %: numbers are added and subtracted"),
    (r"[\w)\]]\s*", r"/", "no * / %: numbers are added and subtracted"),
    ("", r"/", NO_REGEXP),
    ("", r"[&|]", "no operators on bits: && and || join conditions"),
    ("", r"[~^]", "no operators on bits"),
    ("", r"[“”„‘’‚«»]", "strings are in ' or \""),
    ("", r"[#@]", "no private names and no decorators"),
    ("", r"\\", "no escapes outside strings"),
    ("", r"[^\W\d_]", "names have the letters A to Z and a to z, digits, _ and $"),
]

NOT_IN_PROFILE = [
    (DECLARED, "", "this identifier is reserved, and is no name"),
    ("", r"(?:async\s+)?function\b|(?:return|yield|await)\b", NO_FUNCTIONS),
    ("", r"class\b", "no classes: { key: value } makes an object"),
    ("", r"(?:while|do)\b", "no while: for (let i = 0; i < 1000; i++) { .. } with a flag that an if tests"),
    ("", r"(?:break|continue)\b", "no break: a flag that an if tests in the body"),
    ("", r"(?:try|catch|finally|throw)\b", "no try and no throw: an error ends the script"),
    ("", r"(?:switch|case)\b", "no switch: if { .. } else if { .. }"),
    ("", r"var\b", "no var: let or const"),
    ("", r"in\b", "no in: o[key] is undefined where o has no such key"),
    ("", r"isNaN\b", "no isNaN: n !== n holds for NaN alone"),
    ("", r"isFinite\b", "no isFinite: compare with Infinity and -Infinity"),
    ("", r"(?:un)?escape\b", "no escape and no unescape: encodeURIComponent and decodeURIComponent"),
    ("", r"typeof\b", "no typeof: a === undefined, or a === null, tests what a is"),
    ("", r"(?:instanceof|new|delete|void|this|super|debugger|with)\b", "this identifier is left out of the language"),
    ("", r"(?:import|export)\b", "no modules: --prelude FILE runs a script before the others"),
    (rf"{HEADER}<\s*", "", "a bound is a number: use one that is large enough, and test if (i < n) { .. } in the body"),
    (rf"{FOR}[^{{}}()]*", "", "a for counts: for (let i = 0; i < 1000; i++) { .. }"),
    (rf"{IF_OR_FOR}[^{{}}]*\)\s*", "", "the body of an if or a for needs { }"),
    (r"\bconsole\s*\.\s*", "", "print(a, b) writes a line"),
    (r"\bObject\s*\.\s*", "", "of Object there is keys alone"),
    (r"\bJSON\s*\.\s*", "", "of JSON there is stringify alone"),
    (r"\bString\s*\.\s*", "", "of String there are fromCharCode and fromCodePoint"),
    (r"\bSymbol\s*\.\s*", "", "of Symbol there are for and keyFor"),
    (r"\belse\s*", "", "the body of an else needs { }"),
    ("", r"__proto__\b|['\"]__proto__", "no object has a key __proto__"),
    (r"\.\s*", r"(?:toUpperCase|toLowerCase|toLocale\w+)\b", "no change of case: indexOf in an alphabet, and the same place in the other"),
    (r"\.\s*", r"(?:match|matchAll|search|test|exec)\b", NO_REGEXP),
    (r"\.\s*", r"(?:length|description)\b", "this is no call: a.length"),
    (r"\.\s*", r"toString\b", "String(value), or '' + value"),
    (r"\.\s*", r"(?:map|forEach|filter|reduce|push|pop|shift|sort|reverse|find\w*|some|every|fill|entries|keys|values)\b", ARRAYS),
    *((r"\.\s*", rf"{other}\b", f"there is no such method; {name} is near") for other, name in NEAR_NAMES.items()),
    (r"\.\s*", "", "there is no such method"),
    ("", r"Math\b", "no Math: numbers are added, subtracted and compared"),
    ("", r"(?:Number|parseInt|parseFloat|BigInt)\b", NO_NUMBERS),
    ("", r"Array\b", "no array literals: 'a,b'.split(',')"),
    ("", r"RegExp\b", NO_REGEXP),
    (r"\}\s*", r"print\b", "each statement ends with ;, and a prelude prints nothing"),
    (BEGIN, r"print\b", "a prelude prints nothing"),
    (r"[\w$)\]'\"]\s*\n\s*", "", "each statement ends with ;"),
    (rf"{OPEN}", r"print\b", "print is a statement, and has no value"),
    (BEGIN, r"JSON\s*\.\s*(?!stringify\b)", "of JSON there is stringify alone"),
    (BEGIN, r"Object\s*\.\s*(?!keys\b)", "of Object there is keys alone"),
    (BEGIN, r"(?:String|Symbol|JSON|Object|(?:en|de)codeURI\w*)\b", NO_STATEMENT),
    ("", r"(?!(?:String|Symbol|JSON|Object)\b)[A-Z]\w*\b", "this global is left out of the language"),
]

UNEXPECTED = [
    (r"\bJSON\s*\.\s*stringify\s*\([^;]*", r",", "JSON.stringify has one argument: no replacer and no indent"),
    (r"\bSymbol\s*", r"\(", "Symbol.for('key') makes a symbol"),
    ("", r"(?:\|\||&&)=", "no ||= and no &&=: a = a || b"),
    ("", r"\?\?=", "no ??=: an if that tests a === undefined || a === null"),
    (rf"{BEGIN}{NAME}\s*", r":", "no labels: a flag that an if tests leaves a loop"),
    (rf"{OPEN}\((?:[^()]|\([^()]*\))*", r",[^()]*\)\s*=>", NO_FUNCTIONS),
    ("", r"=>", NO_FUNCTIONS),
    ("", r"==(?!=)", "no ==: a === b"),
    ("", r"!=(?!=)", "no !=: a !== b"),
    ("", r"-=", "no -=: a = a - b"),
    ("", r"\.\.\.", "no ..., which spreads or collects"),
    (r"\?", r"\.", "no ?.: a === undefined || a === null ? undefined : a.b"),
    (r"\?", r"\?", "no ??: a === undefined || a === null ? b : a"),
    (rf"{HEADER}<\s*", r"[0-9]", "a bound is at most 1000000; a for inside another goes further"),
    (HEADER, r"<=|>|[=!]==", "a for goes on while its name is less than a number: i < 10"),
    (rf"{FOR}\s*let\s+{NAME}\s*=\s*", "", "a for counts from 0"),
    (rf"{FOR}[^{{}}]*;\s*{NAME}\s*", "", "a for goes up by 1: i++"),
    (rf"{FOR}[^{{}}()]*", "", "a for counts: for (let i = 0; i < 1000; i++) { .. }"),
    (rf"{IF_OR_FOR}[^{{}}]*\)\s*", r"[;'\"(\[!]", "the body of an if or a for needs { }"),
    ("", r"--", "no --: i = i - 1; and a - -b has a blank"),
    (NAMED, r"\+\+", "++ belongs to a for alone: i += 1"),
    ("", r"\+\+", "++ follows the name in a for, and is nowhere else"),
    (MEMBER, r"\[", "no keys in brackets"),
    (rf"{MEMBER}{NAME}\s*", r"\(", NO_FUNCTIONS),
    (rf"{BEGIN}console\s*", r"\.", "print(a, b) writes a line"),
    (NAMED, rf"\[|\.\s*{NAME}\s*=", NO_CHANGE),
    (NAMED, r"\(", "no functions: print is the one call that is a statement"),
    (NAMED, r"\.\s*(?:push|pop|shift|unshift|splice|sort|reverse|fill)\s*\(", NO_CHANGE),
    (NAMED, r"\.\s*(?:forEach|map|filter|reduce)\s*\(", ARRAYS),
    (NAMED, r"\.", NO_STATEMENT),
    (rf"{OPEN}{NAME}\s*", r"\(", NO_FUNCTIONS),
    (BEGIN, r"\[[^\[\]=;]*\]\s*=", "an assignment names one binding: a = b[0];"),
    (BEGIN, r"['\"]use strict", "'use strict' comes first, and once"),
    (BEGIN, r"['\"0-9(!\[+\-]", "an expression alone is no statement: const x = .., or print(..)"),
    (DECLARED, r"[{\[]", "a declaration names one binding: const first = a[0];"),
    (rf"{DECLARED}{NAME}\s*(?:=[^;{{}}]*)?", r",", "a declaration names one binding: let a; let b;"),
    (rf"\bconst\s+{NAME}\s*", r";", "a const has a value: const x = 1;"),
    (OPEN, r"\[", "no array literals: 'a,b'.split(',')"),
    (rf"[{{,]\s*(?:{NAME}|'[^']*'|\"[^\"]*\")\s*", r"[,}]", "a member has a value: { key: key }"),
    (r",\s*", r"[)\]}]", "no comma behind the last"),
    (r"(?:[=(\[,:?+\-<>|&!]|\breturn)\s*\((?:[^()]|\([^()]*\))*", r",", "no comma between two expressions: one is enough"),
    (rf"(?:{OPEN}|\()", r"\+", f"no unary +, and {NO_NUMBERS}"),
    (r"[\w$)\]'\"]\s*", r"\}", "each statement ends with ;"),
    (r"[^=!<>]", r"=(?!=)", "an assignment is a statement of its own"),
    (r"[^;{}\s]\s*", r"\Z", "the file ends within a statement: a ; or what closes is missing"),
    ("", r"\Z", "the file ends within a block: a } is missing"),
    (r"[\w$)\]'\"]\s*\n\s*", "", "each statement ends with ;"),
]

LITERALS = [
    ("number form", r"0[xXbBoO]", "numbers are decimal"),
    ("number form", r"[0-9]+n", "no BigInt"),
    ("number form", r"[0-9]+[eE]", "no exponents: the digits in full"),
    ("number form", r"[0-9]+_", "no separators in numbers"),
    ("number form", "", "a number is decimal digits, and begins with 0 only where it is 0"),
    ("fraction", "", "numbers are whole"),
    ("number too large", "", "a number is at most 9007199254740991"),
    ("bad escape", "", r"\xHH, \uHHHH or \u{H}"),
    ("code point too large", "", r"\u{10FFFF} is the last"),
    ("legacy octal", "", r"\xHH, or \0 before what is no digit"),
    ("line end in string", "", r"\n is a line end; + joins strings of several lines"),
    ("unclosed string", "", "its closing quote is missing"),
    ("open comment", "", "its */ is missing"),
    ("not utf-8", "", "save the file as UTF-8"),
    ("duplicate", "", "this block, or a prelude's top, declares it already"),
    ("loop name", "", "the name of a for isn't assigned in its body: let n = i;"),
    ("too deep", "", "at most 200 are open at one place"),
]

INHERITED = r"(?:constructor|hasOwnProperty|isPrototypeOf|propertyIsEnumerable|toLocaleString|toString|valueOf|__\w+__)\b"
OF_ARRAYS = "left out on an array: join it first"
UNSUPPORTED = [
    ("", r"(?:at|slice)\s*\(\s*['\"]", NO_NUMBERS),
    ("", r"(?:at|slice)\s*\((?!\s*-?[0-9)])", f"{OF_ARRAYS}. Of a string: {NO_NUMBERS}"),
    ("", r"(?:includes|indexOf|lastIndexOf)\s*\([^(),]*,", f"{OF_ARRAYS}. Of a string: {NO_NUMBERS}"),
    ("", r"(?:at|concat|includes|indexOf|lastIndexOf|slice)\b", OF_ARRAYS),
    ("", r"Object\b", "Object.keys takes an object"),
    ("", r"String\b", NO_NUMBERS),
    ("", r"[=!]==", "two arrays, and two objects, aren't compared: join them, or compare their members"),
    ("", r"[<>]", "a string is compared with a string alone"),
    ("", r"\+", "a sum is at most 9007199254740991 away from 0"),
    (r"['\"]\s*", r"-", NO_NUMBERS),
    ("", r"-\s*['\"]", NO_NUMBERS),
    (r"[0-9]{16}\s*", r"-", "a difference is at most 9007199254740991 away from 0"),
    ("", r"-\s*[0-9]{16}", "a difference is at most 9007199254740991 away from 0"),
    (rf"(?:[=(\[,:?+\-<>|&!]|\breturn)\s*", r"-", NO_NUMBERS),
    ("", r"-", f"{NO_NUMBERS}. Of two numbers: a difference is at most 9007199254740991 away from 0"),
    ("", r"\[", "an index is a number where there is no object, and what every object inherits is left out"),
    ("", r"\{", "an object nests at most 200 deep, and holds at most 65536 members"),
    ("", r"\w+\s*\(", NO_NUMBERS),
    ("", INHERITED, "what every object inherits is left out"),
    ("", r"\w", "only objects have members"),
]

HINTS = [
    *(Hint("bad character", *it) for it in BAD_CHARACTER),
    *(Hint("not in profile", *it) for it in NOT_IN_PROFILE),
    *(Hint("unexpected", *it) for it in UNEXPECTED),
    *(Hint(words, "", after, advice) for words, after, advice in LITERALS),
    *(Hint("unsupported", *it) for it in UNSUPPORTED),
]
# A hint is sought in so many characters before the place.
NEAR = 400


def hint(words, text, at):
    """The first hint that fits the fault at this place of the text, or nothing."""
    near, rest = text[max(0, at - NEAR):at], text[at:at + NEAR]
    for it in HINTS:
        if it.words == words and re.match(it.after, rest) and re.search(rf"(?:{it.before})\Z", near, re.DOTALL):
            return it.advice
    return ""
