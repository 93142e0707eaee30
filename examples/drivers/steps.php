<?php
// The steps of run_drivers by the driver for PHP: steps.php URI COLLECTION
use MongoDB\Driver\{BulkWrite, Command, Manager, Monitoring, Query};

[, $uri, $name] = $argv;
$failed = false;

// What the driver's own log says. That a command or a heartbeat failed, or that a server is known no more, is a fault.
class Log implements Monitoring\CommandSubscriber, Monitoring\SDAMSubscriber
{
    public int $lines = 0;
    public array $faults = [];

    private function fault(string $what): void
    {
        $this->lines++;
        $this->faults[] = $what;
    }

    public function commandStarted(Monitoring\CommandStartedEvent $event): void { $this->lines++; }
    public function commandSucceeded(Monitoring\CommandSucceededEvent $event): void { $this->lines++; }
    public function commandFailed(Monitoring\CommandFailedEvent $event): void
    {
        $this->fault("{$event->getCommandName()} failed: {$event->getError()->getMessage()}");
    }

    public function serverHeartbeatStarted(Monitoring\ServerHeartbeatStartedEvent $event): void { $this->lines++; }
    public function serverHeartbeatSucceeded(Monitoring\ServerHeartbeatSucceededEvent $event): void { $this->lines++; }
    public function serverHeartbeatFailed(Monitoring\ServerHeartbeatFailedEvent $event): void
    {
        $this->fault("server lost: {$event->getError()->getMessage()}");
    }

    public function serverChanged(Monitoring\ServerChangedEvent $event): void
    {
        [$before, $after] = [$event->getPreviousDescription()->getType(), $event->getNewDescription()->getType()];
        $lost = $before !== 'Unknown' && $after === 'Unknown';
        $lost ? $this->fault("server lost: {$event->getHost()}") : $this->lines++;
    }

    public function serverOpening(Monitoring\ServerOpeningEvent $event): void { $this->lines++; }
    public function serverClosed(Monitoring\ServerClosedEvent $event): void { $this->lines++; }
    public function topologyOpening(Monitoring\TopologyOpeningEvent $event): void { $this->lines++; }
    public function topologyChanged(Monitoring\TopologyChangedEvent $event): void { $this->lines++; }
    public function topologyClosed(Monitoring\TopologyClosedEvent $event): void { $this->lines++; }
}

function step(string $what, callable $does): void
{
    global $failed;
    try {
        $does() or throw new Exception('another answer than was wanted');
        echo "$what ok\n";
    } catch (Exception $error) {
        $failed = true;
        echo "$what FAILED ", get_class($error), ' ', substr($error->getMessage(), 0, 200), "\n";
    }
}

$manager = new Manager($uri);
$log = new Log();
$manager->addSubscriber($log);
$command = fn(array $body) => $manager->executeCommand('shop', new Command($body))->toArray()[0];
$write = function (callable $add) use ($manager, $name) {
    $bulk = new BulkWrite();
    $add($bulk);
    return $manager->executeBulkWrite("shop.$name", $bulk);
};
$numbers = function (BulkWrite $bulk) {
    foreach (range(0, 999) as $i) {
        $bulk->insert(['_id' => $i, 'a' => $i]);
    }
};
$seven = new Query(['a' => ['$lt' => 10]], ['sort' => ['a' => -1], 'limit' => 7, 'batchSize' => 2]);

step('ping', fn() => $command(['ping' => 1])->ok == 1);
step('insert', fn() => $write($numbers)->getInsertedCount() === 1000);
step('find', fn() => count($manager->executeQuery("shop.$name", $seven)->toArray()) === 7);
step('update', fn() => $write(fn($bulk) => $bulk->update(['_id' => 2], ['$set' => ['a' => -1]]))->getMatchedCount() === 1);
step('delete', fn() => $write(fn($bulk) => $bulk->delete(['_id' => 3]))->getDeletedCount() === 1);
step('count', fn() => $command(['count' => $name, 'query' => (object) []])->n == 999);
step('drop', fn() => $command(['drop' => $name])->ok == 1);
sleep(11);
step('ping_again', fn() => $command(['ping' => 1])->ok == 1);
echo "log: {$log->lines} lines, ", count($log->faults), " of them warnings\n";
step('log', fn() => $log->faults === [] ?: throw new Exception(implode(', ', $log->faults)));
exit($failed ? 1 : 0);
