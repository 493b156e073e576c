// clean

package main

import (
	"fmt"
	"sync"
)

type Job struct {
	ID, N int
}

type Result struct {
	Job Job
	Sum int
}

func worker(id int, jobs <-chan Job, results chan<- Result, wg *sync.WaitGroup) {
	defer wg.Done()
	for j := range jobs {
		sum := 0
		for i := 1; i <= j.N; i++ {
			sum += i
		}
		results <- Result{j, sum}
	}
}

func main() {
	jobs := make(chan Job, 10)
	results := make(chan Result, 10)
	var wg sync.WaitGroup
	for w := 1; w <= 3; w++ {
		wg.Add(1)
		go worker(w, jobs, results, &wg)
	}
	go func() {
		for i := 0; i < 20; i++ {
			jobs <- Job{i, i * 10}
		}
		close(jobs)
	}()
	go func() {
		wg.Wait()
		close(results)
	}()
	total := 0
	for r := range results {
		total += r.Sum
	}
	fmt.Println("total", total)
}
