// The page of tools/console.py: starts its parts, and looks at the cluster now and then.

import { lanesOf } from './lanes.js';
import { showNodes } from './nodes.js';
import { byId, counted, element, request } from './page.js';
import { startQuery } from './query.js';
import { showNodeFile, startRows } from './rows.js';
import { showServers } from './servers.js';
import { Timeline } from './timeline.js';

// Milliseconds between looks.
const [NODES, BROKERS] = [3000, 30_000];

class Page {
  constructor(cluster) {
    Object.assign(this, { cluster, broker: 0, nodes: cluster.nodes, brokers: [], marks: null, digest: '', connections: 0 });
    Object.assign(this, { timelines: new Map(), missing: new Map(), isPaused: false, isLooking: false, nodesDue: 0, brokersDue: 0, fault: '' });
  }

  // Looks

  async look(isForced) {
    if (this.isLooking || (!isForced && (this.isPaused || document.hidden))) return;
    this.isLooking = true;
    try {
      const now = performance.now();
      if (isForced || now >= this.nodesDue) {
        this.nodesDue = now + NODES;
        this.nodes = (await request('/api/nodes')).nodes;
        showNodes(this.nodes, this.brokers);
        showServers((await request('/api/servers')).servers);
      }
      if (isForced || now >= this.brokersDue) await this.lookAtBrokers();
      this.fault = '';
    } catch (fault) {
      this.fault = fault.message;
    } finally {
      this.isLooking = false;
      this.showState();
    }
  }

  async lookAtBrokers() {
    this.brokersDue = performance.now() + BROKERS;
    const answer = await request(`/api/brokers?broker=${this.broker}&known=${this.digest}`);
    this.countConnections(answer.connections);
    this.lookedAt = performance.now();
    this.brokers = answer.brokers;
    this.marks = answer.brokers[this.broker].marks;
    showNodes(this.nodes, this.brokers);
    if (!answer.digest) throw new Error(`broker ${this.cluster.brokers[this.broker]}: ${answer.brokers[this.broker].fault}`);
    if (answer.sources) this.showTimelines(answer);
    this.showParts(answer.parts);
  }

  /** Says of which nodes a part alone is known, since the broker moved on while its pages were read. */
  showParts(parts) {
    const words = parts.map((it) => `Of node ${it.node} the timelines show ${it.pages} of ${counted(it.of, 'page')}: the broker moved on meanwhile. `
      + 'What is on the others is not shown, and chunks with partitions there are shown as not complete.').join(' ');
    if (byId('parts').textContent !== words) byId('parts').textContent = words;
  }

  /** Shows new timelines; of a source that was there before, with the view that it had. */
  showTimelines(answer) {
    const before = this.timelines;
    const focused = document.activeElement;
    this.digest = answer.digest;
    this.timelines = new Map(answer.sources.map((it) => [it.source, new Timeline(lanesOf(it), this)]));
    byId('timelines').replaceChildren(...[...this.timelines.values()].map((it) => it.root));
    if (!this.timelines.size) byId('timelines').append(element('p', { class: 'none' }, 'The broker knows of no segment.'));
    for (const [source, it] of this.timelines) {
      it.measure();
      const old = before.get(source);
      if (old && (old.view.end - old.view.start) < (old.lanes.end - old.lanes.start)) it.look(old.view.start, old.view.end);
      if (this.missing.has(source)) it.showMissing(this.missing.get(source));
      if (old?.canvas === focused) it.canvas.focus({ preventScroll: true });
      if (old?.list === focused) it.list.focus({ preventScroll: true });
    }
  }

  showState() {
    const state = byId('state');
    const ago = this.lookedAt === undefined ? '' : `; broker looked at ${Math.round((performance.now() - this.lookedAt) / 1000)} s ago`;
    const most = this.cluster.connections === null ? '' : ` of ${Number(this.cluster.connections).toLocaleString('en')}`;
    const taken = `${this.connections.toLocaleString('en')}${most} connections taken by this page`;
    const words = this.fault ? `✗ ${this.fault}` : `${this.isPaused ? 'paused' : 'running'}${ago}; ${taken}`;
    state.classList.toggle('fault', Boolean(this.fault));
    // Read aloud only where it is more than the time that goes by.
    state.setAttribute('role', this.fault ? 'alert' : 'none');
    if (state.textContent !== words) state.textContent = words;
  }

  // What the parts ask of the page

  countConnections(count) {
    this.connections += count;
  }

  showRows(node, name) {
    return showNodeFile(node, name);
  }

  /** Marks in the timeline of a source what an answer lists as missing. */
  showMissing(source, missing) {
    this.missing = new Map([[source, missing]]);
    for (const [name, it] of this.timelines) it.showMissing(name === source ? missing : []);
  }

  lookAt(source, slice) {
    const it = this.timelines.get(source);
    if (!it) return;
    it.lookAt(...slice.itvl.split('/').map((text) => Date.parse(text)));
    it.canvas.focus();
  }

  // Start

  listen() {
    byId('broker').replaceChildren(...this.cluster.brokers.map((address, place) => element('option', { value: place }, address)));
    byId('broker').addEventListener('change', () => {
      this.broker = Number(byId('broker').value);
      this.look(true);
    });
    byId('pause').addEventListener('click', () => {
      this.isPaused = !this.isPaused;
      byId('pause').setAttribute('aria-pressed', String(this.isPaused));
      this.showState();
    });
    byId('look').addEventListener('click', () => this.look(true));
    byId('look-cost').textContent = `${this.cluster.brokers.length * this.cluster.nodes.length} connections (one for each broker and node; more where a node has more than 20,000 segments)`;
    const measure = () => [...this.timelines.values()].forEach((it) => it.measure());
    window.addEventListener('resize', measure);
    window.matchMedia('(prefers-color-scheme: dark)').addEventListener('change', measure);
  }
}

async function start() {
  try {
    const cluster = await request('/api/cluster');
    const page = new Page(cluster);
    page.listen();
    startQuery(cluster.examples, page);
    startRows(cluster.nodes);
    await page.look(true);
    setInterval(() => {
      page.look(false);
      page.showState();
    }, 1000);
  } catch (fault) {
    byId('state').textContent = `✗ ${fault.message}`;
    byId('state').classList.add('fault');
  }
}

start();
