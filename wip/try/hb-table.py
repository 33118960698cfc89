S, P = 'specs', 'proofs'
def sp(crate, part, module, *pairs): return [('spec', crate, part, module, *x.split('>')) for x in pairs]
TABLE = []
# ---- records and their like
TABLE += sp('pieces', S, 'Building', 'Body>BuiltBody', 'Holds>AnyBody')
TABLE += sp('effects', P, 'Reading', 'Body>BodyInBytes')
TABLE += sp('edits', P, 'BodyEdits', 'Body>BodyKind')
TABLE += sp('effects', S, 'Effects', 'bodyOf>privilegeBodyOf')
TABLE += sp('tables', S, 'Giving', 'takes>tableTakes', 'Ready>TablesReady', 'Given>TablesGiven', 'rule>ruleTable', 'same>samePlace')
TABLE += sp('model', S, 'ReportFacts', 'fits>head-fits')
TABLE += sp('serving', S, 'Stream', 'Feeds>FedUpTo', 'Fed>FeedResult')
TABLE += sp('revocation', S, 'Carried', 'Passed>PassesEarly', 'Carried>CarriedOut')
TABLE += sp('engine', S, 'Going', 'Passed>WindowPassed', 'upTo>cappedAt')
TABLE += sp('cover', S, 'Sweep', 'Passed>CoveredOrBare', 'Reached>CoveredTo')
TABLE += sp('masks', P, 'Loops', 'Passed>ForBitsBelow')
TABLE += sp('session', S, 'Input', 'Ready>BuffersReady', 'Answers>AnsweredUpTo', 'Answered>FrontAnswered', 'Served>ProgramDone')
TABLE += sp('relevance', S, 'Needed', 'Ready>ChoiceReady', 'Placed>HeadInRange', 'Charted>CellInTable')
TABLE += sp('masks', S, 'Masks', 'Ready>RuleReady')
TABLE += sp('printing', P, 'Placed', 'Ready>ReplyReady', 'replyText>textOfReply')
TABLE += sp('outlines', S, 'Outline', 'Stands>StandingMasks')
TABLE += sp('relevance', S, 'Ahead', 'Stands>IsNext')
TABLE += sp('serving', P, 'Behind', 'Stands>PieceFedTo')
TABLE += sp('queries', S, 'Starting', 'Asked>QueryPosed')
TABLE += sp('scan', S, 'Runs', 'Asked>AskedAt', 'Reached>ScannedTo', 'instant>instantAt')
TABLE += sp('columns', P, 'Filling', 'Begun>BeginsWith')
TABLE += sp('marks', S, 'Least', 'Bounds>IsEdge', 'Turns>CanChangeAt')
TABLE += sp('vectors', S, 'LinePlaces', 'Bounds>MessageBounds')
TABLE += sp('model', S, 'EncodingFacts', 'Bytes>AllBytes')
TABLE += sp('reach', S, 'Net', 'Carried>ClosedUnderRules', 'Coded>CodedRight', 'Within>OnlyWhere')
TABLE += sp('reach', S, 'Reach', 'Kept>KeepsWithin', 'Stepped>ReachStep')
TABLE += sp('theorems', S, 'Operators', 'Counts>CountsAsHeld', 'Gives>RuleGives')
TABLE += sp('rules', S, 'Edges', 'Edges>EdgeRows', 'Row>EdgeRow')
TABLE += sp('rules', S, 'Strata', 'Filled>FilledWith', 'Holds>RuleTable', 'Same>SameBelow', 'Ranked>RanksFound', 'ownOf>ownCount')
TABLE += sp('outlines', S, 'Feed', 'Fed>FeedTable')
TABLE += sp('derivation', S, 'Derive', 'First>FirstBit')
TABLE += sp('laws', S, 'LedgerFacts', 'Framed>WithinLast')
TABLE += sp('laws', S, 'SessionFacts', 'Same>SameTurn')
TABLE += sp('words', S, 'Sums', 'Grown>SumGrown')
TABLE += sp('relevance', P, 'Growing', 'Grown>MarksGrown')
TABLE += sp('effects', P, 'AllowedEffects', 'Holds>HoldsBase', 'Part>LabelledBody')
TABLE += sp('serving', S, 'Turns', 'Kept>LineKept')
TABLE += sp('tables', S, 'Layout', 'Laid>TablesLaid', 'Small>SmallGrid', 'whole>wholeRegion')
TABLE += sp('relevance', P, 'Nearness', 'Left>MarksLeft')
TABLE += sp('revocation', P, 'Revoking', 'Left>AuthorizationsLeft')
TABLE += sp('theorems', S, 'LedgerLines', 'Left>MatchesLedger')
TABLE += sp('outlines', S, 'Coordinates', 'Numbered>HasCoordinates', 'rightObject>objectOnRight', 'rightSubject>subjectOnRight')
TABLE += sp('model', S, 'HoldsSteady', 'Part>Subset')
TABLE += sp('outlines', S, 'Masks', 'Placed>CodesPlaced', 'Written>WrittenMasks')
TABLE += sp('batch', S, 'Prepared', 'Prepared>TablePrepared')
TABLE += sp('grounding', S, 'Steps', 'Reads>StepReads')
TABLE += sp('simple', S, 'Engine', 'Served>ServedRules')
TABLE += sp('ffi', S, 'Bounds', 'Small>SmallReply')
TABLE += sp('ffi', S, 'Numbers', 'numberOf>replyNumber', 'optionOf>optionFrom', 'side>sideFrom')
TABLE += sp('vectors', S, 'Transcripts', 'Stage>TranscriptState', 'next>nextState', 'standing>countStanding', 'reached>stateAfter', 'remaining>linesLeft')
TABLE += sp('derivation', S, 'Exact', 'Tables>AccessWords')
TABLE += sp('withdrawal', S, 'Turns', 'Turns>TurnMakes')
TABLE += sp('withdrawal', S, 'Stays', 'upTo>untilInstant')
TABLE += sp('serving', P, 'Walk', 'Walks>LineWalk')
TABLE += sp('vectors', P, 'LineWalks', 'Walks>TextWalk')
TABLE += sp('encoding', P, 'Contents', 'Within>CountsWithin')
TABLE += sp('model', S, 'Session', 'Written>WrittenText')
TABLE += sp('model', S, 'TextFacts', 'Written>DigitsOf')
TABLE += sp('records', S, 'Pages', 'bytesOf>recordBytes', 'countOf>recordCount', 'startOf>recordStart', 'placeOf>layoutOf', 'joined>joinedNumbers')
TABLE += sp('records', P, 'StoredRows', 'wide>width-is')
TABLE += sp('reading', P, 'Codes', 'codeOf>wordCode')
TABLE += sp('report', S, 'Sheet', 'filled>sheetFilled')
TABLE += sp('simple', S, 'Stored', 'ruleIn>storedRule')
TABLE += sp('text', S, 'Writing', 'turnText>byteTurnText')
TABLE += sp('refusals', P, 'Tests', 'joined>anyOf')
# ---- functions
TABLE += [('fn', 'facts', '', 'place_of', 'place_for'), ('fn', 'effects', 'privileges', 'place_of', 'privilege_index'),
  ('fn', 'records', 'page', 'place_of', 'layout_of'), ('fn', 'encoding', 'insertion', 'place_of', 'insertion_index'),
  ('type', 'records', '', 'Place', 'Layout'),
  ('fn', 'effects', 'records', 'body_of', 'privilege_body_of'),
  ('fn', 'reading', 'words', 'sign_of', 'read_sign'), ('fn', 'columns', '', 'sign_of', 'sign_byte'),
  ('fn', 'columns', '', 'option_of', 'option_byte'),
  ('fn', 'rules', 'ranks', 'one', 'as_bit'), ('fn', 'outlines', 'sides', 'one_if', 'as_bit'),
  ('fn', 'records', 'numbers', 'bit', 'as_bit'), ('fn', 'vectors', '', 'count', 'as_bit'),
  ('fn', 'fields', '', 'wide', 'u16_of'), ('fn', 'outlines', 'left', 'wide', 'usize_of'), ('fn', 'windows', '', 'wide', 'u64_of')]
TABLE += [('fn', 'reading', 'words', a, b) for a, b in [('number_of', 'read_number'), ('instant_of', 'read_instant'), ('term_of', 'read_term'),
  ('option_of', 'read_option'), ('option_term_of', 'read_option_term'), ('operator_of', 'read_operator'), ('kind_of', 'read_kind'), ('coded', 'code_if')]]
TABLE += [('fn', 'reading', 'places', 'field_at', 'field_bounds'),
  ('fn', 'records', 'numbers', 'heading_at', 'heading_numbers'), ('fn', 'records', 'numbers', 'privilege_at', 'privilege_numbers'),
  ('fn', 'records', 'numbers', 'authorization_at', 'authorization_numbers'), ('fn', 'records', 'numbers', 'rule_at', 'rule_numbers'),
  ('fn', 'simple', 'sides', 'number_of', 'number_or'), ('fn', 'places', '', 'both_signs', 'either_sign'),
  ('fn', 'grounding', 'turns', 'number_at', 'pair_number_at')]
TABLE += sp('grounding', S, 'Turns', 'numberAt>pairNumberAt')
# ---- the variable that says which body
TABLE += [('var', ['crates/records/**/*.rt', 'crates/records/**/*.antt', 'crates/records/must-fail*/*.edit', 'crates/ffi/src/*.rt', 'crates/ffi/specs/*.antt', 'crates/ffi/proofs/**/*.antt'], 'body', 'source')]
# ---- reach uses the function of fields
TABLE += [('lit', 'crates/reach/src/lib.rt', """// A number below 4 as a word of 16 bits.
fn wide(x: u8) -> u16
    ensures { λ r. ⌜ r ≡ x ⌝ }
{
    x as u16
}

""", ''), ('lit', 'crates/reach/src/lib.rt', 'let signs = wide(right', 'let signs = fields::u16_of(right'),
  ('lit', 'crates/reach/proofs/aim_bits/Proof.antt', '.wide .ensures)', '.u16-of .ensures .0)'),
  ('lit', 'crates.txt', 'reach: foundation words\n', 'reach: foundation fields words\n'),
  ('lit', 'crates/outlines/src/left.rt', '// A byte as an index.\n', '// A byte as a number of the size of an index.\n'),
  ('lit', 'crates/simple/proofs/+gives+held+in_force+throughout/Proof.antt', ' Passed', ' AfterTest'),
  ('lit', 'crates/vectors/src/main.rt', '// One for a file that stands.\n', '// 1 for a file that stands, else 0.\n'),
  ('lit', 'crates/rules/src/ranks.rt', '// One for a test that passes.\n', '// 1 where a test passes, else 0.\n')]
# ---- files
FILES = """
direct P Turns FoundLoop
grounding S Turns RuleTurns
serving S Turns LineTurns
withdrawal S Turns RoundTurns
grounding S Steps RuleSteps
serving S Steps PieceSteps
simple P Steps EngineSteps
engine S Standing StandingPlaces
masks P Standing StandingPairs
outlines S Standing StandingRules
grounding P Rounds TurnRounds
rules P Rounds RankRounds
withdrawal S Rounds WithdrawalRounds
effects P Reading BodiesRead
engine S Reading TurnReads
grounding P Reading StepBits
bodies S Parts BodyTests
pieces S Parts CutParts
soundness S Parts SoundParts
ffi S Numbers PackedReplies
lookup S Numbers NarrowedNumbers
reading P Numbers DigitValues
outlines P Numbering CoordinateTurns
places S Numbering ReachedNumbers
questions S Numbering RuleNumbers
foundation S Masks BitMasks
masks S Masks RuleMasks
outlines S Masks LeftMasks
facts P Giving LineGiving
tables P Giving GivingSteps
tables S Giving TableGiving
outlines S Aims RuleAims
grounding S Answers WindowAnswers
answers S Asking AskingRows
masks P Bits SingleBits
ffi S Bounds ReplyBounds
answers P ByRows AnswersByRows
report P ByRows SheetByRows
revocation S Carried CarriedOut
foundation S Counting MaximalCount
rules P Edges EdgeFacts
effects S Effects EffectRecords
marks S Examples MarkExamples
report S Examples SheetExamples
engine S Facts LinesGiven
reading S Fields LineFields
batch P Filled AnswerBytes
columns P Filling RowFilling
records P Joined CopiedRecords
relevance P Keeping KeptNumbers
requests P Keeping KindNumbers
tables S Layout TableLayout
reading S Lines ParsedLines
text P Lines LineEnd
lookup P Loops RecordLoops
masks P Loops BitLoops
marks S Marks NextMarks
engine S Narrowed NarrowedBase
lookup P Narrowed NarrowedFacts
outlines S Needed NeededAccesses
questions S Operators OperatorSteps
engine S Places AccessPlaces
simple P Places StoredPlaces
foundation S Records ByteRecords
requests P Replies EffectReplies
grounding P Rows StepRows
evaluation P Rules RuleWords
foundation S Runs MaximalRuns
selection P Selected SelectedLoop
queries P SoundBodies QuestionBodies
serving P StepFacts PieceStepFacts
rules S Strata RankTables
refusals P Tests JoinedTests
"""
TABLE += [('file', c, {'S': S, 'P': P}[k], a, b) for c, k, a, b in (l.split() for l in FILES.strip().split('\n'))]
TABLE += [('lit', 'crates/outlines/specs/LeftMasks.antt', '; Standing: `masked`)', '; StandingRules: `masked`)'),
  ('lit', 'crates/ffi/specs/ReplyBounds.antt', 'its number (Numbers)', 'its number (PackedReplies)')]
TABLE += [('type', 'session', '', 'Going', 'InputState'), ('type', 'withdrawal', '', 'Turn', 'RoundStep'), ('type', 'grounding', '', 'Turn', 'RuleTurn')]
DOCS = [('lit', 'docs/' + f + '.md', a, b) for f, a, b in [
  ('ASSURANCE', '`ffi/Bounds', '`ffi/ReplyBounds'), ('ASSURANCE', '`ffi/Numbers`', '`ffi/PackedReplies`'),
  ('ASSURANCE', '`session/Input`: `Answered`, `Served`, `Ran`', '`session/Input`: `FrontAnswered`, `ProgramDone`, `Ran`'),
  ('DECISIONS', '(`Parts.parts`)', '(`SoundParts.parts`)'), ('DECISIONS', '`soundness/Parts`', '`soundness/SoundParts`'),
  ('DECISIONS', '(`batch::prepare`, `Prepared`)', '(`batch::prepare`, `TablePrepared`)'),
  ('DECISIONS', '`engine/Narrowed.narrowed-may`', '`engine/NarrowedBase.narrowed-may`'),
  ('ENGINE', '`Sums.Grown`', '`Sums.SumGrown`'), ('ENGINE', '`lay_out` (`Laid`)', '`lay_out` (`TablesLaid`)'),
  ('ENGINE', '`give` (`Given`)', '`give` (`TablesGiven`)'), ('ENGINE', '`next_ready` (`Ready`)', '`next_ready` (`RuleReady`)'),
  ('ENGINE', '`Answers.may-exact`', '`WindowAnswers.may-exact`'), ('ENGINE', '`finish` (`Reached`, `Listing`)', '`finish` (`ScannedTo`, `Listing`)'),
  ('ENGINE', '`Places.mapping-placed`', '`AccessPlaces.mapping-placed`'), ('ENGINE', '`Standing.stands-for`', '`StandingPlaces.stands-for`'),
  ('ENGINE', '`Reading.rule-able`', '`TurnReads.rule-able`'), ('ENGINE', '`Narrowed.narrowed-may`', '`NarrowedBase.narrowed-may`'),
  ('ENGINE', '`Facts.facts-valued`', '`LinesGiven.facts-valued`'), ('ENGINE', '`grounding/specs/Steps`', '`grounding/specs/RuleSteps`'),
  ('LIBRARY', '`ffi/specs/Bounds`', '`ffi/specs/ReplyBounds`'),
  ('MODEL', '`ffi/Bounds.', '`ffi/ReplyBounds.'), ('MODEL', '`report/Examples.shown`', '`report/SheetExamples.shown`'),
  ('MODEL', '| `Bounds`, `Turns` |', '| `IsEdge`, `CanChangeAt` |'), ('MODEL', '`engine/Narrowed.narrowed-may`', '`engine/NarrowedBase.narrowed-may`'),
  ('MODEL', '`revocation/specs/Carried`', '`revocation/specs/CarriedOut`'), ('MODEL', '`outlines/specs/Standing.stands`', '`outlines/specs/StandingRules.stands`'),
  ('MODEL', '`simple/proofs/Steps`', '`simple/proofs/EngineSteps`'), ('MODEL', '`foundation/Runs`', '`foundation/MaximalRuns`')]]
TABLE += DOCS
# ---- further functions
MORE = [('fn', 'effects', 'privileges', 'put_privilege', 'insert_in_order'), ('fn', 'pieces', 'granting', 'gap_from', 'granting_gap_from'),
  ('fn', 'grounding', 'pairs', 'in_force', 'instants_in_force'), ('fn', 'grounding', 'pairs', 'mark_at', 'mark_broken_at'),
  ('fn', 'grounding', 'pairs', 'stands', 'stands_at_pair'),
  ('fn', 'serving', 'turns', 'put_reply', 'put_reply_line'), ('fn', 'serving', 'turns', 'put_short', 'put_short_line'),
  ('fn', 'serving', 'taking', 'keep', 'keep_byte'), ('fn', 'selection', 'ranking', 'spread', 'spread_strata'),
  ('fn', 'revocation', '', 'remaining', 'build_remaining'), ('fn', 'engine', 'walking', 'pass', 'pass_window'),
  ('fn', 'vectors', 'checks', 'walk', 'check_lines')]
MORE += sp('vectors', S, 'Said', 'asked>askedLines', 'told>toldLines')
MORE += sp('requests', P, 'EffectReplies', 'read>replyRead')
MORE += sp('queries', S, 'Reached', 'below>numbersBelow')
MORE += sp('serving', S, 'Pieces', 'before>beforeNewline', 'behind>behindNewline')
TABLE += MORE
TABLE += [('lit', 'docs/DECISIONS.md', '`grounding::in_force` in the code', '`grounding::instants_in_force` in the code')]
# ---- names declared in modules with parameters
TABLE += sp('foundation', S, 'Totals', 'Gap>TotalGap')
TABLE += sp('foundation', S, 'BitMasks', 'Built>MaskBuilt')
TABLE += sp('foundation', S, 'Graph', 'Walk>CountedPath')
TABLE += sp('model', S, 'HoldsKeys', 'Near>WithinKeys')
TABLE += sp('model', S, 'HoldsLaws', 'Fed>PrecededOnly')
TABLE += sp('windows', P, 'Halves', 'Cut>HalvedBetween')
TABLE += sp('marks', S, 'Least', 'Found>MarkOrNone')
TABLE += sp('laws', S, 'Matching', 'Paired>TwinsFor')
TABLE += sp('grounding', S, 'Order', 'Fed>PrecedersDone', 'Ran>TurnRan', 'Row>StepRow', 'Stage>WindowInputs')
TABLE += sp('reach', S, 'Net', 'Closed>ClosedNet')
TABLE += sp('reach', P, 'Growth', 'Done>AimsNeeded')
TABLE += sp('derivation', S, 'Fixpoint', 'Shut>NothingNew')
TABLE += sp('withdrawal', P, 'Walks', 'Walk>RoundAt')
TABLE += sp('serving', S, 'PieceSteps', 'Steps>PieceStepped')
TABLE += sp('masks', S, 'RuleMasks', 'StandsAt>StandsOnNeed')
TABLE += sp('simple', S, 'Engine', 'Listed>RuleOfBase')
TABLE += [('fn', 'lookup', 'kinds', 'is_privilege', 'is_privilege_request'), ('fn', 'encoding', 'terms', 'rule_of', 'new_rule'),
  ('fn', 'effects', 'records', 'authorization_of', 'new_authorization'), ('fn', 'effects', 'records', 'privilege_of', 'named_privilege'),
  ('fn', 'refusals', 'grants', 'uncovered', 'first_uncovered')]
TABLE += sp('lookup', S, 'NarrowedNumbers', 'narrowed>narrowedTo')
TABLE += sp('text', S, 'Writing', 'answering>writtenAnswer', 'refusing>writtenRefusal')
TABLE += sp('batch', P, 'AnswerBytes', 'filled>bytesFilled')
