"""Documents of checked files as text, JSON, SARIF, JUnit and GitHub's annotations. What is said stands in the documents; here it is spelled."""
import collections
import json
import re
import xml.etree.ElementTree as tree

from . import record

SARIF = 'https://raw.githubusercontent.com/oasis-tcs/sarif-spec/main/sarif-2.1/schema/sarif-schema-2.1.0.json'
NO_XML = re.compile('[^\t\n\r\x20-\ud7ff\ue000-\ufffd\U00010000-\U0010ffff]')  # characters that XML has no way to write
KINDS = ('accepted', 'refused', 'undecided', 'error')
CAUSES = {'firmware': 'refused', 'lender': 'undecided', 'caller': 'error'}


def kind(document):
    """Accepted, or by who causes that it is not."""
    return CAUSES[document['cause']] if document['verdict'] == 'refused' else document['verdict']


def line(document):
    """The line of a file; an error's names it."""
    if document['verdict'] == 'error':
        return document['text']
    return f'{document["file"]}: {document["text"]}'


# ---- text


def as_text(document, verbose, quiet):
    if document['verdict'] == 'error' or quiet and document['status'] == 0:
        return ''  # standard error has the message
    lines = [line(document), *(f'    {one}' for one in details(document) if verbose)]
    return ''.join(f'{one}\n' for one in lines)


def details(document):
    """The lines of -v."""
    if document['verdict'] == 'accepted':
        return [record.event_text(k, record.Event(**event)) for k, event in enumerate(document['events'], 1)]
    if document['verdict'] == 'error':
        return []
    inputs = record.InputRange(document['first_input'], document['last_input'])
    lines = [f'inputs {inputs.first} to {inputs.last}'] if inputs != record.INVALID_CHANNELS else []
    lines += [f'step {step["step"]:,}: {step["text"]}' for step in document['last_steps']]
    return [*lines, *document['more'], f'advice: {document["advice"]}.']


def summary(documents):
    """The files of each kind, in a line."""
    counted = collections.Counter(map(kind, documents))
    told = [record.count(counted[one], one) if one == 'error' else f'{counted[one]:,} {one}' for one in KINDS if counted[one]]
    return f'{record.count(len(documents), "file")}: {", ".join(told)}'


def at_once(document, given):
    """What is printed of a file when it is checked."""
    if given.format == 'text':
        return as_text(document, given.verbose, given.quiet)
    if given.quiet and document['status'] == 0:
        return ''
    return {'json': as_json, 'github': as_github}.get(given.format, lambda document: '')(document)


def at_end(documents, given):
    """What is printed when all files are checked."""
    shown = [document for document in documents if document['status'] or not given.quiet]
    return {'sarif': as_sarif, 'junit': as_junit}.get(given.format, lambda documents: '')(shown)


# ---- JSON


def as_json(document):
    return json.dumps(document) + '\n'


# ---- SARIF 2.1.0


def as_sarif(documents):
    run = {'tool': {'driver': {'name': 'lane check', 'rules': rules(documents)}}, 'columnKind': 'unicodeCodePoints',
           'invocations': [invocation(documents)], 'results': [result(one) for one in documents if one['verdict'] != 'error']}
    return json.dumps({'$schema': SARIF, 'version': '2.1.0', 'runs': [run]}, indent=1) + '\n'


def rule_id(document):
    return f'lane-{document["number"]}' if document['verdict'] == 'refused' else 'lane-accepted'


def rules(documents):
    """One for each number that was met, and one for what is accepted."""
    found = {}
    for document in documents:
        if document['verdict'] == 'refused':
            found[rule_id(document)] = record.REASONS[document['number']]
        elif document['verdict'] == 'accepted':
            found[rule_id(document)] = 'every input is answered alike'
    return [{'id': name, 'shortDescription': {'text': text}} for name, text in sorted(found.items())]


def invocation(documents):
    errors = [document for document in documents if document['verdict'] == 'error']
    notes = [{'level': 'error', 'message': message(line(document))} for document in errors]
    notes += [{'level': 'warning', 'message': message(f'{document["file"]}: {warning}')}
              for document in documents for warning in document['warnings']]
    return {'executionSuccessful': not errors, 'toolExecutionNotifications': notes}


def message(text):
    """A plain message: SARIF reads braces as places for arguments and brackets as links."""
    return {'text': re.sub(r'([\\\[\]])', r'\\\1', text).replace('{', '{{').replace('}', '}}')}


def physical(one, address=None):
    """The location of a file, or of a place with its line."""
    whole = {'artifactLocation': {'uri': one['uri']}}
    if one.get('line'):
        whole['region'] = {'startLine': one['line']}
    if address is not None:
        whole['address'] = {'absoluteAddress': address}
    return whole


def result(document):
    if document['verdict'] == 'accepted':
        return {'ruleId': rule_id(document), 'kind': 'pass', 'level': 'none', 'message': message(line(document)),
                'locations': [{'physicalLocation': physical(document)}]}
    place = document['place'] or {}
    where = {'physicalLocation': physical(place if place.get('uri') else document, place.get('address'))}
    if place.get('function'):
        where['logicalLocations'] = [{'name': place['function'], 'kind': 'function'}]
    related = [{'id': 1, 'physicalLocation': physical(document), 'message': {'text': 'the firmware'}}]
    related += [{'id': k, 'physicalLocation': physical(frame), 'message': {'text': 'inlined here'}}
                for k, frame in enumerate(place.get('inlined', ()), 2)]
    return {'ruleId': rule_id(document), 'level': 'error', 'locations': [where],
            'message': message(f'{line(document)}; advice: {document["advice"]}.'),
            'relatedLocations': related, 'partialFingerprints': {'laneInput/v1': document['input_sha256']}}


# ---- JUnit


def as_junit(documents):
    counted = collections.Counter(map(kind, documents))
    totals = {'tests': str(len(documents)), 'failures': str(counted['refused']), 'errors': str(counted['undecided'] + counted['error'])}
    suites = tree.Element('testsuites', name='lane check', **totals)
    suite = tree.SubElement(suites, 'testsuite', name='lane check', **totals)
    for document in documents:
        add_case(suite, document)
    for one in suites, *suites.iter('testcase'):
        one.text, one.tail = '\n', '\n'
    return "<?xml version='1.0' encoding='UTF-8'?>\n" + tree.tostring(suites, encoding='unicode') + '\n'


def add_case(suite, document):
    case = tree.SubElement(suite, 'testcase', classname='lane check', name=plain(document['file']))
    said = plain(document['text'])
    if document['status']:
        title = f'refused {document["number"]}' if document['verdict'] == 'refused' else 'error'
        wrong = tree.SubElement(case, 'failure' if kind(document) == 'refused' else 'error', type=title, message=said)
        wrong.text = plain('\n'.join([document['text'], *details(document)]))
    told = [f'warning: {warning}' for warning in document['warnings']]
    if told or not document['status']:
        tree.SubElement(case, 'system-out').text = plain('\n'.join([*told, *([document['text']] if not document['status'] else [])]))


def plain(text):
    return NO_XML.sub('\ufffd', text)


# ---- GitHub's annotations


def as_github(document):
    """Workflow commands; what is accepted makes no annotation."""
    place = document.get('place') or {}
    where = place if place.get('file') else document
    lines = [command('warning', document, 'lane check', f'{document["file"]}: {warning}') for warning in document['warnings']]
    if document['status'] == 0:
        return ''.join([*lines, f'lane check: {escaped(line(document))}\n'])
    title = f'refused {document["number"]}' if document['verdict'] == 'refused' else 'lane check'
    advice = f'\nadvice: {document["advice"]}.' if document.get('advice') else ''
    return ''.join([*lines, command('error', where, title, line(document) + advice)])


def command(level, where, title, message):
    at = f',line={where["line"]}' if where.get('line') else ''
    return f'::{level} file={escaped_property(where["file"])}{at},title={escaped_property(title)}::{escaped(message)}\n'


def escaped(text):
    return text.replace('%', '%25').replace('\r', '%0D').replace('\n', '%0A')


def escaped_property(text):
    return escaped(text).replace(':', '%3A').replace(',', '%2C')
