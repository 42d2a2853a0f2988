// What the desk answers, as page/wire/openapi.json has it, and what the page makes of no answer:
// types alone.

/**
 * @typedef {{ name: string, role: string }} Person
 * @typedef {[name: string, generation: number]} Component
 * @typedef {{ note: string, reviewer: string, vote: string }} Vote
 * @typedef {{ carried: string[], components: Component[], digest: string, file: string,
 *   gap: number, length: number, signing: string }} Facts of an image
 * @typedef {{ number: number, returned: string | null, state: string, submitter: string,
 *   title: string, votes: Vote[] } & Facts} Request
 * @typedef {{ certificates: number, components: number, digests: number }} Counts
 * @typedef {{ number: number, officer: string, state: string } & Counts} ProposalRow in the list
 * @typedef {{ certificates: string[], components: Component[], digests: string[], kind: string,
 *   number: number, officer: string, passed: number, stamp: number | null,
 *   state: string, tag: string }} Proposal
 * @typedef {{ verdict: string, component?: string, generation?: number, level?: number }} Verdict
 * @typedef {{ allowed: boolean, by: Verdict, file: 'submitted' | 'returned', request: number,
 *   state: string, submitter: string, title: string }} Barred
 * @typedef {{ adds: Counts, bars: Barred[], dbx: number, proposal: number }} Impact
 */

/**
 * A refusal by the desk or its proxy; no answer of the desk, so that whether a command was accepted
 * is open (the name and the number are those of a refusal that doesn't tell it); or a stop by the
 * person, `sent` if the browser had told that all bytes are out.
 * @typedef {{ kind: 'refused', status: number, name: string, number: number, at?: number,
 *   byDesk: boolean }} Refused
 * @typedef {{ kind: 'lost', status: number, name?: string, number?: number }} Lost
 * @typedef {{ kind: 'stopped', sent: boolean }} Stopped
 * @typedef {Refused | Lost | Stopped} NoValue
 */

/**
 * What came: a value of the desk, or none.
 * @template [T=any]
 * @typedef {{ kind: 'value', value: T } | NoValue} Answer
 */

export {};
