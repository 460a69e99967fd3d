{
    'kit': 'walks',
    'local': 'Rattle·walks.proofs.Local',
    'types': {'settings': 'counters', 'wire': 'counters', 'certificate': 'counters', 'act': 'replica', 'perform': 'replica', 'judge': 'replica'},
    'callees': {},
    'spec': {
        'mathlib.Core.Bool': ['cond'],
        'mathlib.Core.List': ['List'],
        'lib.Dec': ['eqb'],
        'lib.ListN': ['length', 'take'],
        'Rattle·settings.specs.Answer': ['refuses'],
        'Rattle·blocks.specs.declared.Block': ['Block'],
        'Rattle·memory.specs.Leaders': ['byList'],
        'Rattle·protocol.specs.Calls': ['outcome', 'recordCall', 'proposeCall'],
        'Rattle·refusals.specs.Early': ['lent'],
        'Rattle·replica·specs.specs.Reply': ['replyOf', 'lentTo', 'replied', 'repliedBy'],
    },
}
